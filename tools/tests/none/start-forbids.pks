; A guest may not eat one of two foods. Each dish has nuts, so with nuts no dish is safe.
(pks 2)
(domain
  (types food dish) (objects (food nuts milk) (dish pesto custard))
  (predicates (allergic food) (contains dish food) (fed) (sick))
  (action test (params (?f food)) (pre (not-derived (kw (allergic ?f))))
    (senses (sense (allergic ?f))) (knows (kw (allergic ?f))))
  (action serve (params (?d dish))
    (effects (set (fed))
      (when ((contains ?d nuts) (allergic nuts)) (set (sick)))
      (when ((contains ?d milk) (allergic milk)) (set (sick))))
    (knows (kf (fed)))))
(problem
  (init (kf (not (sick))) (kf (contains pesto nuts)) (kf (contains custard milk)) (kf (contains custard nuts))
    (lcw (contains _ _)) (kx (allergic nuts) (allergic milk)))
  (goal (k (fed)) (k (not (sick)))))
