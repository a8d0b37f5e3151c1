; A formula that no sense finds.
; ./pks check
(pks 1)
(domain
  (types t)
  (objects (t a b))
  (predicates (p) (q) (at t))
  (functions (f t) (g t))
  (action x (senses (sense (p) (q))) (knows (kw (p)))))
(problem (goal (k (p))))
