; parameter missing
; says: code 204
; says: `(?r room)`
(pks 1)
(domain
  (types room item)
  (objects (room hall kitchen) (item cup))
  (predicates (at room) (in item room) (held item))
  (action go (params (?a room) (?b room))
    (pre (k (at ?a)) (k (not (= ?a ?b))))
    (effects (unset (at ?a)) (set (at ?b)))
    (knows (kf (not (at ?a))) (kf (at ?b))))
  (action look (params (?i item))
    (pre (k (at ?r)))
    (senses (sense (in ?i ?r)))
    (knows (kw (in ?i ?r))))
  (action pick (params (?i item) (?r room))
    (pre (k (at ?r)) (k (in ?i ?r)))
    (effects (set (held ?i)) (unset (in ?i ?r)))
    (knows (kf (held ?i)) (kf (not (in ?i ?r))))))
(problem
  (init (kf (at hall)) (kx (in cup hall) (in cup kitchen)))
  (goal (k (held cup))))
