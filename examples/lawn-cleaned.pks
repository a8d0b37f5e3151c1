; The lawn is alive, and what is in the can is poured on it. If it was poison, the can is to be cleaned.
; Shows: learning of the past, and what a plan's facts rest on. Whether the lawn lives afterwards tells what
; was poured; so the can is cleaned only where that is known.
; ./pks plan 4
; ./pks explain 4
(pks 1)
(domain
  (predicates (alive) (poison))
  (action pour (effects (when ((poison)) (unset (alive)))))
  (action look (senses (sense (alive))) (knows (kw (alive))))
  (action clean (pre (k (poison))) (effects (unset (poison))) (knows (kf (not (poison))))))
(problem (init (kf (alive))) (goal (k (not (poison)))))
