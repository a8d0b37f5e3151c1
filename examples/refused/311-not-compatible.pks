; The world isn't as the start says.
; ./pks exec 0
(pks 1)
(domain (types t) (objects (t a b)) (predicates (p t)) (functions (f t)))
(problem (init (kf (p a))) (goal (k (p a))))
(world (values ((f) a)))
