(define (problem miconic-1)
  (:domain miconic-sensing)
  (:objects p1 - passenger f1 f2 f3 - floor)
  (:init (and
    (lift-at f1)
    (destin p1 f1)
    (oneof (origin p1 f2) (origin p1 f3))))
  (:goal (forall (?p - passenger) (served ?p))))
