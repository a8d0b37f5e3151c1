; A fact whose earlier truth isn't known.
; ./pks check
(pks 1)
(domain
  (types t)
  (objects (t a b))
  (predicates (p) (q) (at t))
  (functions (f t) (g t))
  (action x (pre (kw (q))) (effects (when ((q)) (set (p))))
    (knows (kw (p)))))
(problem (goal (k (p))))
