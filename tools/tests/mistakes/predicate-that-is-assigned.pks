; a predicate that is assigned
; says: A fact becomes true by `(set (lit))`, and false by `(unset (lit))`.
(pks 1)
(domain
  (predicates (lit))
  (action light (effects (assign (lit) true)) (knows (kf (lit)))))
(problem (goal (k (lit))))
