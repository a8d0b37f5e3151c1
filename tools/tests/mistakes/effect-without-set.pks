; effect without set
; says: code 124
; says: write `(set (q))`
(pks 1)
(domain (predicates (p) (q))
 (action a (effects (q))))
(problem (goal (kw (p))))
