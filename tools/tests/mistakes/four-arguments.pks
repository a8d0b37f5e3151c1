; four arguments
; says: code 208
; says: 3 arguments of a predicate
(pks 1)
(domain (types t) (objects (t a)) (predicates (p t t t t)))
(problem (goal (k (p a a a a))))
