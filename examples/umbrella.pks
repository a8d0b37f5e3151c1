; Whether it rains will be seen through the window when the plan is carried out.
; Shows: a formula that is known whether from the start, and a branch before any action.
; ./pks plan 2
; ./pks exec 2
(pks 1)
(domain
  (predicates (rain) (dry) (outside))
  (action walk-dry (pre (k (not (rain))))
    (effects (set (outside)) (set (dry))) (knows (kf (outside)) (kf (dry))))
  (action walk-with-umbrella (pre (k (rain)))
    (effects (set (outside)) (set (dry))) (knows (kf (outside)) (kf (dry)))))
(problem
  (init (kw (rain)))
  (goal (k (outside)) (k (dry))))
(world (true (rain)))
