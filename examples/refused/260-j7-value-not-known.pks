; A value that is assigned from an unknown one.
; ./pks check
(pks 1)
(domain
  (types t)
  (objects (t a b))
  (predicates (p) (q) (at t))
  (functions (f t) (g t))
  (action x (effects (assign (f) (g))) (knows (kv (f)))))
(problem (goal (k (p))))
