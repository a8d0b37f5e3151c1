; move as in pddl
; says: code 260
; says: `(unset (at ?from))`
; says: `(k (not (= ?from ?to)))`
(pks 1)
(domain
  (types room item)
  (objects (room hall kitchen study bedroom) (item cup))
  (predicates (at room) (in item room) (held item))
  (action go (params (?from room) (?to room))
    (pre (k (at ?from)))
    (effects (unset (at ?from)) (set (at ?to)))
    (knows (kf (not (at ?from))) (kf (at ?to))))
  (action look (params (?i item) (?r room))
    (pre (k (at ?r)))
    (senses (sense (in ?i ?r)))
    (knows (kw (in ?i ?r))))
  (action pick (params (?i item) (?r room))
    (pre (k (at ?r)) (k (in ?i ?r)))
    (effects (set (held ?i)) (unset (in ?i ?r)))
    (knows (kf (held ?i)) (kf (not (in ?i ?r))))))
(problem
  (init (kf (at hall))
    (kx (in cup kitchen) (in cup study) (in cup bedroom)))
  (goal (k (held cup)) (k (at hall))))
