; The gate is to be shut at the end, and no action shuts it.
(pks 1)
(domain (types spot) (objects (spot street yard porch)) (predicates (gate-open) (delivered) (next spot spot))
  (functions (here spot))
  (action open (pre (k (= (here) street)) (k (not (gate-open)))) (effects (set (gate-open))) (knows (kf (gate-open))))
  (action walk (params (?to spot)) (pre (k (gate-open)) (k (next (here) ?to)))
    (effects (assign (here) ?to)) (knows (kf (= (here) ?to))))
  (action post (pre (k (= (here) porch))) (effects (set (delivered))) (knows (kf (delivered)))))
(problem
  (init (kf (= (here) street)) (kf (not (gate-open)))
    (kf (next street yard)) (kf (next yard street)) (kf (next yard porch)) (kf (next porch yard)))
  (goal (k (delivered)) (k (not (gate-open)))))
