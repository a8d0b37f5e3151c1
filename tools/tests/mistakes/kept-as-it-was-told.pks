; what stays as it was, told
; says: What stays as it was needn't be told: where `(not (spoiled ?f))` is known its effect on `ill` doesn't come about
; says: With it the file is accepted.
(pks 1)
(domain
  (types food)
  (objects (food milk soup))
  (predicates (spoiled food) (fed) (ill))
  (action serve (params (?f food))
    (effects (set (fed)) (when ((spoiled ?f)) (set (ill))))
    (knows (kf (fed)) (if ((k (not (spoiled ?f)))) (kf (not (ill)))))))
(problem
  (init (kf (not (ill))) (kf (not (spoiled soup))))
  (goal (k (fed)) (k (not (ill)))))
