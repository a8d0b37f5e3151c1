; condition about knowledge
; says: code 203
; says: write `(p)`
(pks 1)
(domain (predicates (p) (q))
 (action a (effects (when ((k (p))) (set (q))))))
(problem (goal (kw (p))))
