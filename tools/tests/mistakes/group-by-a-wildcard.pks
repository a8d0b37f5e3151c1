; a group by a wildcard
; says: A wildcard stands in patterns alone: name each member.
; says: (kx (fragile c1) (fragile c2)))
; says: With it the file is accepted.
(pks 1)
(domain
  (types crate town)
  (objects (crate c1 c2) (town paris rome))
  (predicates (loaded crate town) (fragile crate) (delivered crate))
  (functions (label crate town))
  (action read-label (params (?c crate))
    (senses (sense-value (label ?c))) (knows (kv (label ?c))))
  (action load (params (?c crate) (?t town))
    (pre (kv (label ?c)))
    (effects (set (loaded ?c ?t)) (when ((= (label ?c) ?t)) (set (delivered ?c))))
    (knows (kf (loaded ?c ?t)) (if ((k (= (label ?c) ?t))) (kf (delivered ?c))))))
(problem
  (init (lcw (loaded _ _))
    (kx (fragile _)))
  (goal (k (delivered c1))))
