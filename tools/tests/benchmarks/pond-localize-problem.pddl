(define (problem localize-3)
  (:domain localize)
  (:objects c1 c2 c3 - cell)
  (:init (and
    (east-of c2 c1)
    (east-of c3 c2)
    (oneof (at c1) (at c2) (at c3))))
  (:goal (at c2)))
