; condition one parenthesis
; says: code 124
; says: `((p))`
(pks 1)
(domain (predicates (p) (q))
 (action a (effects (when (p) (set (q))))))
(problem (goal (kw (p))))
