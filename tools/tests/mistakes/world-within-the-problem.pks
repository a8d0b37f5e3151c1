; the world within the problem
; says: `(world ..)` stands behind `(problem ..)`, and not within it.
; says: With it the file is accepted.
(pks 1)
(domain
  (predicates (p))
  (action a (effects (set (p))) (knows (kf (p)))))
(problem
  (goal (k (p)))
  (world (true (p))))
