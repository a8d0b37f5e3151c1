; The arguments of a fact stand in another order in pre than at the start.
(pks 1)
(domain (types thing) (objects (thing amox cipro strep coli)) (predicates (works thing thing) (ill thing) (well))
  (action swab (params (?g thing)) (pre (not-derived (kw (ill ?g)))) (senses (sense (ill ?g))) (knows (kw (ill ?g))))
  (action give (params (?d thing) (?g thing)) (pre (k (ill ?g)) (k (works ?g ?d)))
    (effects (set (well))) (knows (kf (well)))))
(problem (init (kx (ill strep) (ill coli)) (kf (works amox strep)) (kf (works cipro coli))) (goal (k (well))))
