; a literal without parentheses of its own, in a query, a sense, an add and at the start
; says: The literal needs parentheses of its own: `(k (held ?p))`.
; says: (action drop (params (?p part)) (pre (k (held ?p)))
(pks 1)
(domain (types part spot) (objects (part nut) (spot hall)) (predicates (held part)) (functions (here spot))
  (action drop (params (?p part)) (pre (k held ?p))
    (effects (unset (held ?p))) (knows (kf (not (held ?p))))))
(problem (init (kf here hall)) (goal (k (not (held nut)))))
