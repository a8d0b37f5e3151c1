; A call of exec without a world.
; ./pks exec 0
(pks 1)
(domain (predicates (p)))
(problem (init (kf (p))) (goal (k (p))))
