; A name is declared twice.
; ./pks check
(pks 1)
(domain (predicates (p) (p)))
(problem (goal (k (p))))
