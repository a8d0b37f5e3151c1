; equation of two types
; says: code 206
; says: must have one type
(pks 1)
(domain (types t u) (objects (t a) (u b)) (predicates (p t)))
(problem (init (kf (= a b))) (goal (k (p a))))
