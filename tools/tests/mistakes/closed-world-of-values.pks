; a closed world of a function
; says: A closed world is of facts.
(pks 1)
(domain
  (types crate town)
  (objects (crate c1 c2) (town paris rome))
  (predicates (loaded crate town) (fragile crate) (delivered crate))
  (functions (label crate town))
  (action read-label (params (?c crate))
    (senses (sense-value (label ?c))) (knows (kv (label ?c))))
  (action load (params (?c crate) (?t town))
    (pre (kv (label ?c)))
    (effects (set (loaded ?c ?t)) (when ((= (label ?c) ?t)) (set (delivered ?c))))
    (knows (kf (loaded ?c ?t)) (if ((k (= (label ?c) ?t))) (kf (delivered ?c))))))
(problem
  (init (lcw (label _)))
  (goal (k (delivered c1))))
