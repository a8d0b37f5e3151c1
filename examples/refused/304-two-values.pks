; A place has two values.
; ./pks check
(pks 1)
(domain (types t) (objects (t a b)) (predicates (p t)) (functions (f t)))
(problem (init (kf (p a))) (goal (k (p a))))
(world (true (p a)) (values ((f) a) ((f) b)))
