; The same paper, known not to be red at the start.
; ./pks plan 4
(pks 1)
(domain
  (predicates (acid) (red))
  (action dip (effects (when ((acid)) (set (red)))))
  (action look (senses (sense (red))) (knows (kw (red)))))
(problem (init (kf (not (red)))) (goal (kw (acid))))
