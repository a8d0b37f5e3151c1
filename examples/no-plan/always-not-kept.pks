; Know whether there is poison in the can, the lawn being alive at every moment.
; Cause: an aim must be met on every side, and where there was poison the lawn dies of pouring.
; ./pks plan 4
(pks 2)
(domain
  (predicates (alive) (poison))
  (action pour (effects (when ((poison)) (unset (alive)))))
  (action look (senses (sense (alive))) (knows (kw (alive)))))
(problem (init (kf (alive))) (goal (always (k (alive))) (kw (poison))))
