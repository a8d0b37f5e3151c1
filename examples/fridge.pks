; Serve food that isn't spoiled, and leave the fridge as it was found, open or shut.
; Shows: an end that is as the start was. A function that no action changes keeps the first value.
; ./pks plan 7
; ./pks exec 7
(pks 1)
(domain
  (types food state)
  (objects (food milk soup) (state open shut))
  (predicates (spoiled food) (served))
  (functions (found state) (door state))
  (action look (pre (not-derived (kv (door))))
    (senses (sense-value (door))) (knows (kv (door))))
  (action move (params (?s state)) (pre (kv (door)) (not-derived (k (= (door) ?s))))
    (effects (assign (door) ?s)) (knows (kf (= (door) ?s))))
  (action smell (params (?f food)) (pre (k (= (door) open)) (not-derived (kw (spoiled ?f))))
    (senses (sense (spoiled ?f))) (knows (kw (spoiled ?f))))
  (action serve (params (?f food)) (pre (k (= (door) open)) (k (not (spoiled ?f))))
    (effects (set (served))) (knows (kf (served)))))
(problem
  (init (kf (= (door) (found))) (kx (spoiled milk) (spoiled soup)))
  (goal (k (served)) (k (= (door) (found)))))
(world
  (true (spoiled milk))
  (values ((found) shut) ((door) shut)))
