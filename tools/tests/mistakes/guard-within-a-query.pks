; a guard within a query
; says: `not-derived` stands around a query, and not within one: write `(not-derived (kw (shut)))`
; says: With it the file is accepted.
(pks 1)
(domain
  (predicates (shut))
  (action look (pre (kw (not-derived (shut)))) (senses (sense (shut))) (knows (kw (shut)))))
(problem (goal (kw (shut))))
