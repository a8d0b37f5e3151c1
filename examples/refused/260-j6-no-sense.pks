; A value that nothing finds.
; ./pks check
(pks 1)
(domain
  (types t)
  (objects (t a b))
  (predicates (p) (q) (at t))
  (functions (f t) (g t))
  (action x (params (?x t)) (knows (kv (f)))))
(problem (goal (k (p))))
