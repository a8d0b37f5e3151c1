; Two ways over the river: one action that costs 9, or two that cost 2 and 1.
; Shows: costs. The best plan is the cheapest of at most the given depth, not the shortest.
; ./pks plan 2
(pks 2)
(domain
  (predicates (a) (g))
  (action jump (cost 9) (effects (set (g))) (knows (kf (g))))
  (action first (cost 2) (effects (set (a))) (knows (kf (a))))
  (action then (pre (k (a))) (effects (set (g))) (knows (kf (g)))))
(problem (goal (k (g))))
