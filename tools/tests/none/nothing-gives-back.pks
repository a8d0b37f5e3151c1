; The hand is free once: nothing makes it free again.
(pks 1)
(domain (types part) (objects (part nut bolt)) (predicates (free-hand) (held part) (stored part))
  (action grip (params (?p part)) (pre (k (free-hand)))
    (effects (set (held ?p)) (unset (free-hand))) (knows (kf (held ?p)) (kf (not (free-hand)))))
  (action store (params (?p part)) (pre (k (held ?p)))
    (effects (unset (held ?p)) (set (stored ?p))) (knows (kf (not (held ?p))) (kf (stored ?p)))))
(problem (init (kf (free-hand))) (goal (k (stored nut)) (k (stored bolt))))
