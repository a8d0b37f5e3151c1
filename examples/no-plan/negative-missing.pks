; Litmus paper turns red in acid; whether it was red before isn't said.
; Cause: a red paper tells of acid only where it is known not to have been red before.
; ./pks plan 4
(pks 1)
(domain
  (predicates (acid) (red))
  (action dip (effects (when ((acid)) (set (red)))))
  (action look (senses (sense (red))) (knows (kw (red)))))
(problem (goal (kw (acid))))
