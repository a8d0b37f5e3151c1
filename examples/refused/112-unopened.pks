; A `)` closes nothing.
; ./pks check
(pks 1)
(domain (predicates (p)))
(problem (goal (k (p)))))
