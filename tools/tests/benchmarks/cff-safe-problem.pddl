(define (problem safe-3)
  (:domain safe)
  (:objects c1 c2 c3 - code)
  (:init (and
    (not (open))
    (not (rich))
    (oneof (right c1) (right c2) (right c3))))
  (:goal (and (open) (rich))))
