; The start contradicts itself.
; ./pks check
(pks 1)
(domain (predicates (p)))
(problem (init (kf (p)) (kf (not (p)))) (goal (k (p))))
