; A fridge is to be left as it was found, and what is asked is that it was open at the start.
(pks 2)
(domain
  (predicates (open) (fed))
  (action pull (effects (set (open))) (knows (kf (open))))
  (action push (effects (unset (open))) (knows (kf (not (open)))))
  (action serve (pre (k (open))) (effects (set (fed))) (knows (kf (fed)))))
(problem
  (init (kf (not (open))))
  (goal (k (fed)) (at-start (k (open)))))
