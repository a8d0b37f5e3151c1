; functions before predicates
; says: code 124
; says: `predicates` must stand before `functions`
(pks 1)
(domain (types t) (objects (t a)) (functions (f t t) (g t t)) (predicates (p t))
 (action x (params (?a t)) (pre (k (p (g (f ?a)))))))
(problem (goal (k (p a))))
