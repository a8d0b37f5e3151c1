; A greenhouse whose bed is dry, fine or wet. No action tells anything, and the depth is too small besides.
(pks 1)
(domain
  (types bed place level)
  (objects (bed basil) (place shed house) (level dry fine wet))
  (predicates (hot))
  (functions (here place) (moisture bed level))
  (action go (params (?p place)) (effects (assign (here) ?p)))
  (action probe (params (?b bed)) (pre (k (= (here) house))) (senses (sense-value (moisture ?b))))
  (action water (params (?b bed)) (pre (k (= (here) house)) (k (= (moisture ?b) dry)))
    (effects (assign (moisture ?b) fine)))
  (action drain (params (?b bed)) (pre (k (= (here) house)) (k (= (moisture ?b) wet)))
    (effects (assign (moisture ?b) fine)))
  (action feel (pre (k (= (here) house))) (senses (sense (hot))))
  (action vent (pre (k (hot))) (effects (unset (hot)))))
(problem
  (init (kf (= (here) shed)))
  (goal (k (= (moisture basil) fine)) (k (not (hot)))))
