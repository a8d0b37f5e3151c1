(define (problem ebtcs-3)
  (:domain ebtcs)
  (:objects b1 b2 b3 - bomb t1 - toilet)
  (:init (and
    (oneof (in b1) (in b2) (in b3))))
  (:goal (defused)))
