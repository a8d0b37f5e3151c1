; The third form isn't the problem.
; ./pks check
(pks 1)
(domain (predicates (p)))
(init (kf (p)))
