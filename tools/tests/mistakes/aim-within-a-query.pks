; an aim over time within a query
; says: `at-start` stands around a query, and not within one: write `(at-start (k (shut)))`
; says: With it the file is accepted.
(pks 2)
(domain
  (predicates (shut) (fed))
  (action open (effects (unset (shut))) (knows (kf (not (shut)))))
  (action feed (pre (k (not (shut)))) (effects (set (fed))) (knows (kf (fed)))))
(problem (init (kf (shut))) (goal (k (fed)) (k (at-start (shut)))))
