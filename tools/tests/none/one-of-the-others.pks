; One of the others is spoiled, and nothing says so; the tofu isn't, and is thrown away.
(pks 1)
(domain (types food) (objects (food egg ham tofu)) (predicates (spoiled food) (gone food) (served))
  (action smell (params (?f food)) (pre (not-derived (kw (spoiled ?f)))) (senses (sense (spoiled ?f))) (knows (kw (spoiled ?f))))
  (action serve (params (?f food)) (pre (k (not (gone ?f))) (k (not (spoiled ?f)))) (effects (set (served))) (knows (kf (served)))))
(problem (init (kf (gone tofu)) (kf (not (spoiled tofu))) (kf (not (gone egg))) (kf (not (gone ham)))) (goal (k (served))))
