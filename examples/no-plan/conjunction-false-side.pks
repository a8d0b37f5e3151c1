; One lamp shows whether both fuses are whole; know of each whether it is.
; Cause: where a conjunction of two unknown literals is false, neither is known.
; ./pks plan 4
(pks 1)
(domain
  (predicates (left) (right))
  (action look (senses (sense (left) (right))) (knows (kw (left) (right)))))
(problem (goal (kw (left)) (kw (right))))
