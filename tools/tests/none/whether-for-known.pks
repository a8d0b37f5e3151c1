; Whoever looks at a coin knows on which side it lies; it can't be made heads.
(pks 1)
(domain (predicates (heads))
  (action look (senses (sense (heads))) (knows (kw (heads)))))
(problem (goal (k (heads))))
