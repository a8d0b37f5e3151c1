; sensed told as fact
; says: code 260
; says: told by `kw`, not by `kf`
(pks 1)
(domain (predicates (p) (q))
 (action a (senses (sense (p))) (knows (kw (p)) (kf (p)))))
(problem (goal (kw (p))))
