; The same kettle, asked for a plan of depth 4.
; ./pks plan 4
(pks 1)
(domain
  (predicates (hot) (plugged))
  (action plug (effects (set (plugged))) (knows (kf (plugged))))
  (action touch (pre (k (plugged)))
    (senses (sense (hot))) (knows (kw (hot))))
  (action boil (pre (k (plugged)) (k (not (hot))))
    (effects (set (hot))) (knows (kf (hot)))))
(problem (goal (k (hot))))
