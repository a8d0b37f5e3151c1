; A kettle may be hot or not: touch it, and boil it only where it isn't.
; Shows: a branch on what was sensed. Sensing needs the kettle to be plugged in.
; ./pks plan 4
; ./pks exec 4
(pks 1)
(domain
  (predicates (hot) (plugged))
  (action plug (effects (set (plugged))) (knows (kf (plugged))))
  (action touch (pre (k (plugged)))
    (senses (sense (hot))) (knows (kw (hot))))
  (action boil (pre (k (plugged)) (k (not (hot))))
    (effects (set (hot))) (knows (kf (hot)))))
(problem (goal (k (hot))))
(world)
