; A fact that doesn't fit its declaration.
; ./pks check
(pks 1)
(domain (types t) (objects (t a b)) (predicates (p t)) (functions (f t)))
(problem (init (kf (p a))) (goal (k (p a))))
(world (true (p a b)) (values ((f) a)))
