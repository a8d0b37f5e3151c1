; A fourth form that isn't the world.
; ./pks check
(pks 1)
(domain (predicates (p)))
(problem (goal (k (p))))
(plan)
