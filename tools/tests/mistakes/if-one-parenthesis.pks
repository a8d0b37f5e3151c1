; if one parenthesis
; says: code 124
; says: `((k (p)))`
(pks 1)
(domain (predicates (p) (q))
 (action a (effects (set (q)) (when ((p)) (set (q))) ) (knows (if (k (p)) (kf (q))))))
(problem (goal (kw (p))))
