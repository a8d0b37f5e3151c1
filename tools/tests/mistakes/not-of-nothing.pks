; an effect that sets the negation of nothing
; says: code 124
(pks 1)
(domain (predicates (p)) (action a (effects (set (not))) (knows (kf (p)))))
(problem (init (kf (p))) (goal (k (p))))
