; A form that a world doesn't have.
; ./pks check
(pks 1)
(domain (types t) (objects (t a b)) (predicates (p t)) (functions (f t)))
(problem (init (kf (p a))) (goal (k (p a))))
(world (true (not (p b))))
