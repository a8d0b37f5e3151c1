; A plant is watered only where it is known how much it needs, and no action finds it out.
(pks 1)
(domain (types level) (objects (level low high)) (predicates (watered)) (functions (dose level))
  (action water (pre (kv (dose))) (effects (set (watered))) (knows (kf (watered)))))
(problem (goal (k (watered))))
