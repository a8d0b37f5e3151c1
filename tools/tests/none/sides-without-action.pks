; Two parcels are looked at, and each that is sound is shipped; what is done with one that isn't is missing.
(pks 1)
(domain (types parcel) (objects (parcel p1 p2)) (predicates (sound parcel) (done parcel))
  (action look (params (?p parcel)) (senses (sense (sound ?p))) (knows (kw (sound ?p))))
  (action ship (params (?p parcel)) (pre (k (sound ?p))) (effects (set (done ?p))) (knows (kf (done ?p)))))
(problem (goal (k (done p1)) (k (done p2))))
