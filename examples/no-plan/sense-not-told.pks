; A robot looks whether the lamp is lit, and the agent isn't told that it will know.
; Cause: the sense has no add. A sense that `knows` doesn't tell teaches nothing.
; ./pks plan 4
(pks 1)
(domain
  (predicates (lit))
  (action look (senses (sense (lit)))))
(problem (goal (kw (lit))))
