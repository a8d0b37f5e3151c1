; A group has a literal twice.
; ./pks check
(pks 1)
(domain (predicates (p) (q)))
(problem (init (kx (p) (q) (p))) (goal (k (p))))
