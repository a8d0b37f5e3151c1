; A cup is looked for in three rooms, and nothing says that it is in one of them. No side of a look lacks an action.
(pks 1)
(domain
  (types room item)
  (objects (room hall kitchen study) (item cup))
  (predicates (at room) (in item room) (held item))
  (action go (params (?a room) (?b room)) (pre (k (at ?a)) (k (not (= ?a ?b))))
    (effects (unset (at ?a)) (set (at ?b))) (knows (kf (at ?b)) (kf (not (at ?a)))))
  (action look (params (?i item) (?r room)) (pre (k (at ?r))) (senses (sense (in ?i ?r))) (knows (kw (in ?i ?r))))
  (action pick (params (?i item) (?r room)) (pre (k (at ?r)) (k (in ?i ?r)))
    (effects (set (held ?i))) (knows (kf (held ?i)))))
(problem (init (kf (at hall))) (goal (k (held cup))))
