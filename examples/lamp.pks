; A lamp hangs high: climb, then light it.
; Shows: actions in a row, a precondition, and effects that the agent knows of.
; ./pks plan 2
(pks 1)
(domain (predicates (up) (lit))
  (action climb (effects (set (up))) (knows (kf (up))))
  (action light (pre (k (up))) (effects (set (lit))) (knows (kf (lit)))))
(problem (goal (k (lit))))
