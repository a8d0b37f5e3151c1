; A byte that isn't ASCII.
; ./pks check
(pks 1) ; größe
(domain (predicates (p)))
(problem (goal (k (p))))
