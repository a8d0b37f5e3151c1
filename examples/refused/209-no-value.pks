; A function that can have no value.
; ./pks check
(pks 1)
(domain (types t) (predicates (p)) (functions (f t)))
(problem (goal (k (p))))
