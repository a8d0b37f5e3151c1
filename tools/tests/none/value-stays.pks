; No action goes from one place to another.
(pks 1)
(domain (types spot parcel) (objects (spot dock aisle) (parcel box)) (predicates (held parcel) (stored parcel))
  (functions (here spot))
  (action grip (params (?p parcel)) (pre (k (= (here) dock))) (effects (set (held ?p))) (knows (kf (held ?p))))
  (action store (params (?p parcel)) (pre (k (held ?p)) (k (= (here) aisle)))
    (effects (set (stored ?p))) (knows (kf (stored ?p)))))
(problem (init (kf (= (here) dock))) (goal (k (stored box))))
