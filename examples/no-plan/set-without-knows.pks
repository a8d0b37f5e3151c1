; A lamp is switched on, and the agent isn't told that it is on.
; Cause: the effect has no add. What an action does, the agent knows at once only by `knows`.
; ./pks plan 4
(pks 1)
(domain
  (predicates (lit))
  (action switch-on (effects (set (lit)))))
(problem (goal (k (lit))))
