; The same lamp, and the agent knows what its switching does.
; ./pks plan 4
(pks 1)
(domain
  (predicates (lit))
  (action switch-on (effects (set (lit))) (knows (kf (lit)))))
(problem (goal (k (lit))))
