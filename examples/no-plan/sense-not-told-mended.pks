; The same look, and the agent will know what it shows.
; ./pks plan 4
(pks 1)
(domain
  (predicates (lit))
  (action look (senses (sense (lit))) (knows (kw (lit)))))
(problem (goal (kw (lit))))
