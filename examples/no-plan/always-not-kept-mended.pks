; The same, with an action that tests the can itself.
; ./pks plan 4
(pks 2)
(domain
  (predicates (alive) (poison))
  (action pour (effects (when ((poison)) (unset (alive)))))
  (action look (senses (sense (alive))) (knows (kw (alive))))
  (action test-can (cost 4) (senses (sense (poison))) (knows (kw (poison)))))
(problem (init (kf (alive))) (goal (always (k (alive))) (kw (poison))))
