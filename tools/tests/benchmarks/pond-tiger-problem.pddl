(define (problem TIGER-1)
  (:domain TIGER)
  (:init (and (alive) (not (outside)) (oneof (tiger-left) (tiger-right))))
  (:goal (and (alive) (outside))))
