; an aim over time with a negated literal
; says: To ask that it is known to be false write `(k (not (fragile c1)))`. Here
; says: (always (k (not (fragile c1))))
; says: With it the file is accepted.
(pks 2)
(domain
  (types crate town)
  (objects (crate c1 c2) (town paris rome))
  (predicates (loaded crate town) (fragile crate) (delivered crate))
  (functions (label crate town))
  (action read-label (params (?c crate))
    (senses (sense-value (label ?c))) (knows (kv (label ?c))))
  (action load (params (?c crate) (?t town))
    (pre (kv (label ?c)))
    (effects (set (loaded ?c ?t)) (when ((= (label ?c) ?t)) (set (delivered ?c))))
    (knows (kf (loaded ?c ?t)) (if ((k (= (label ?c) ?t))) (kf (delivered ?c))))))
(problem
  (init (lcw (loaded _ _)) (kf (not (fragile c1))))
  (goal (always (not (fragile c1))) (k (delivered c1))))
