; negated query
; says: code 124
; says: (not-derived (k (= ?a ?b)))
; says: `(k (not (= ?a ?b)))`
(pks 1)
(domain
  (types room item)
  (objects (room hall kitchen) (item cup))
  (predicates (at room) (in item room) (held item))
  (action go (params (?a room) (?b room))
    (pre (k (at ?a)) (not (k (= ?a ?b))))
    (effects (unset (at ?a)) (set (at ?b)))
    (knows (kf (not (at ?a))) (kf (at ?b))))
  (action look (params (?i item) (?r room))
    (pre (k (at ?r)))
    (senses (sense (in ?i ?r)))
    (knows (kw (in ?i ?r))))
  (action pick (params (?i item) (?r room))
    (pre (k (at ?r)) (k (in ?i ?r)))
    (effects (set (held ?i)) (unset (in ?i ?r)))
    (knows (kf (held ?i)) (kf (not (in ?i ?r))))))
(problem
  (init (kf (at hall)) (kx (in cup hall) (in cup kitchen)))
  (goal (k (held cup))))
