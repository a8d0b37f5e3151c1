(define (problem diagnose-3)
  (:domain diagnose)
  (:init (and
    (cheap belt) (cheap valve) (dear pump)
    (= (total-cost) 0)
    (oneof (broken pump) (broken belt) (broken valve))))
  (:goal (runs))
  (:metric minimize (total-cost)))
