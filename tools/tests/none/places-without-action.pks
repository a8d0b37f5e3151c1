; Two parcels have labels, red, blue or grey, and nothing is done with a grey one.
(pks 1)
(domain
  (types parcel colour)
  (objects (parcel p1 p2) (colour red blue grey))
  (predicates (done parcel))
  (functions (label parcel colour))
  (action look (params (?p parcel)) (senses (sense-value (label ?p))) (knows (kv (label ?p))))
  (action left (params (?p parcel)) (pre (k (= (label ?p) red))) (effects (set (done ?p))) (knows (kf (done ?p))))
  (action right (params (?p parcel)) (pre (k (= (label ?p) blue))) (effects (set (done ?p))) (knows (kf (done ?p)))))
(problem (goal (k (done p1)) (k (done p2))))
