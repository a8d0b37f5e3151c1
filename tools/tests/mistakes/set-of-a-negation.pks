; set of a negation
; says: code 124
; says: write `(unset (q))`
(pks 1)
(domain (predicates (p) (q))
 (action a (effects (set (not (q))))))
(problem (goal (kw (p))))
