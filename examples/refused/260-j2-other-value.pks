; A value that no effect assigns.
; ./pks check
(pks 1)
(domain
  (types t)
  (objects (t a b))
  (predicates (p) (q) (at t))
  (functions (f t) (g t))
  (action x (params (?x t)) (effects (assign (f) ?x))
    (knows (kf (= (f) a)))))
(problem (goal (k (p))))
