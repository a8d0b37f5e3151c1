; A coin lies on the table; know whether it shows heads.
; Shows: sensing, and a goal to know whether. The plan needs no branch: either answer will do.
; ./pks plan 1
; ./pks exec 1
(pks 1)
(domain
  (predicates (heads))
  (action look (senses (sense (heads))) (knows (kw (heads)))))
(problem (goal (kw (heads))))
(world (true (heads)))
