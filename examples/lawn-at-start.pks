; The lawn again, and one can that is emptied by pouring: know whether it had poison at first.
; Shows: an aim at the start. At the end the can has no poison whatever was in it.
; ./pks plan 3
; ./pks exec 3
(pks 2)
(domain
  (predicates (alive) (poison))
  (action pour
    (effects (when ((poison)) (unset (alive))) (unset (poison)))
    (knows (kf (not (poison)))))
  (action look (senses (sense (alive))) (knows (kw (alive)))))
(problem
  (init (kf (alive)))
  (goal (at-start (kw (poison)))))
(world (true (alive) (poison)))
