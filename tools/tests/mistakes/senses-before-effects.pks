; senses before effects
; says: code 124
; says: `effects` must stand before `senses`
(pks 1)
(domain (predicates (p) (q))
 (action a (senses (sense (p))) (effects (set (q))) (knows (kw (p)))))
(problem (goal (kw (p))))
