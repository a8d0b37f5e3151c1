; An effect that a later one may undo.
; ./pks check
(pks 1)
(domain
  (types t)
  (objects (t a b))
  (predicates (p) (q) (at t))
  (functions (f t) (g t))
  (action go (params (?x t) (?y t))
    (effects (unset (at ?x)) (set (at ?y)))
    (knows (kf (not (at ?x))))))
(problem (goal (k (p))))
