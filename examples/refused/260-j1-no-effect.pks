; A fact that no effect makes so.
; ./pks check
(pks 1)
(domain
  (types t)
  (objects (t a b))
  (predicates (p) (q) (at t))
  (functions (f t) (g t))
  (action x (knows (kf (p)))))
(problem (goal (k (p))))
