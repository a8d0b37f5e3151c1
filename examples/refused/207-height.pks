; A term within a term within a term.
; ./pks check
(pks 1)
(domain (types t) (objects (t a)) (predicates (p t)) (functions (f t t)))
(problem (goal (k (p (f (f (f a)))))))
