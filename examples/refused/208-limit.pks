; A limit is passed.
; ./pks check
(pks 1)
(domain (types t) (objects (t a)) (predicates (p t t t t)))
(problem (goal (k (p a a a a))))
