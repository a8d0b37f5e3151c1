; An effect under a condition that may not hold.
; ./pks check
(pks 1)
(domain
  (types t)
  (objects (t a b))
  (predicates (p) (q) (at t))
  (functions (f t) (g t))
  (action x (effects (when ((q)) (set (p)))) (knows (kf (p)))))
(problem (goal (k (p))))
