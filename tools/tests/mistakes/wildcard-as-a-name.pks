; a wildcard in the place of a predicate
; says: code 124
(pks 1)
(domain (predicates (p)) (action a (effects (set (p))) (knows (kf (p)))))
(problem (init (kf (_))) (goal (k (p))))
