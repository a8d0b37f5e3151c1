; A kettle may be hot: plug in, touch, branch, boil.
; Cause: the depth counts branches too. Three actions and a branch in a row need depth 4.
; ./pks plan 3
(pks 1)
(domain
  (predicates (hot) (plugged))
  (action plug (effects (set (plugged))) (knows (kf (plugged))))
  (action touch (pre (k (plugged)))
    (senses (sense (hot))) (knows (kw (hot))))
  (action boil (pre (k (plugged)) (k (not (hot))))
    (effects (set (hot))) (knows (kf (hot)))))
(problem (goal (k (hot))))
