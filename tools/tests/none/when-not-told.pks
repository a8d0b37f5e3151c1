; A gripper holds where the part is dry, which is known; no `knows` tells it.
(pks 1)
(domain (predicates (dry) (held))
  (action grasp (pre (k (dry))) (effects (when ((dry)) (set (held))))))
(problem (init (kf (dry))) (goal (k (held))))
