; Paper dipped into an acid turns red. Which of two glasses holds acid can't be seen.
; Shows: learning of a cause from its trace, twice, where the trace was known to be absent before.
; ./pks plan 7
; ./pks exec 7
(pks 1)
(domain
  (types glass paper)
  (objects (glass g1 g2) (paper p1 p2))
  (predicates (acid glass) (red paper) (used paper) (labelled glass))
  (action dip (params (?p paper) (?g glass)) (pre (k (not (used ?p))))
    (effects (when ((acid ?g)) (set (red ?p))) (set (used ?p)))
    (knows (kf (used ?p))))
  (action look (params (?p paper)) (senses (sense (red ?p))) (knows (kw (red ?p))))
  (action label (params (?g glass)) (pre (kw (acid ?g)))
    (effects (set (labelled ?g))) (knows (kf (labelled ?g)))))
(problem
  (init (kf (not (used p1))) (kf (not (used p2))) (kf (not (red p1))) (kf (not (red p2))))
  (goal (k (labelled g1)) (kw (acid g2))))
(world (true (acid g2)))
