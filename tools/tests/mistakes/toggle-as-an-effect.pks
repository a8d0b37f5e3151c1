; a toggle as an effect of its own
; says: code 124
; says: There is no `toggle`
; says: (effects (when ((p)) (unset (p))) (when ((not (p))) (set (p))))
; says: With it the file is accepted.
(pks 1)
(domain (predicates (p) (q))
 (action a (effects (toggle (p)))))
(problem (goal (kw (p))))
