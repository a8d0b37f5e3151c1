; What the goal asks of the start isn't said there.
(pks 2)
(domain (predicates (open) (fed))
  (action go-in (effects (set (open))) (knows (kf (open))))
  (action feed (pre (k (open))) (effects (set (fed))) (knows (kf (fed))))
  (action shut (effects (unset (open))) (knows (kf (not (open))))))
(problem (goal (k (fed)) (at-start (k (not (open)))) (k (not (open)))))
