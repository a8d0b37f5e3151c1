; How much water a plant needs is to be known, and no action finds it out.
(pks 1)
(domain (types level) (objects (level low high)) (predicates (watered level)) (functions (dose level))
  (action water (params (?l level)) (effects (set (watered ?l))) (knows (kf (watered ?l)))))
(problem (goal (kv (dose))))
