; The same, and each fuse can be tested alone.
; ./pks plan 4
(pks 1)
(domain
  (predicates (left) (right))
  (action look (senses (sense (left) (right))) (knows (kw (left) (right))))
  (action test-left (senses (sense (left))) (knows (kw (left))))
  (action test-right (senses (sense (right))) (knows (kw (right)))))
(problem (goal (kw (left)) (kw (right))))
