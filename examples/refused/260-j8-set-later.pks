; A region that a later effect fills.
; ./pks check
(pks 1)
(domain
  (types t)
  (objects (t a b))
  (predicates (p) (q) (at t))
  (functions (f t) (g t))
  (action x (effects (clear (at _)) (set (at a))) (knows (lcw (at _)))))
(problem (goal (k (p))))
