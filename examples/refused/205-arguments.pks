; The wrong number of arguments.
; ./pks check
(pks 1)
(domain (types t) (objects (t a)) (predicates (p t)))
(problem (goal (k (p a a))))
