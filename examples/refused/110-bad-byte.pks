; A byte that may not stand here.
; ./pks check
(pks 1)
(domain (predicates (p)))
(problem (goal (k (p.q))))
