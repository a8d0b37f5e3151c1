; A robot fetches a cup that stands in the kitchen or in the study, and brings it to the hall.
; Shows: one predicate for "at", one group for "somewhere", looking, and a branch.
; ./pks plan 6
; ./pks exec 6
(pks 1)
(domain
  (types room item)
  (objects (room hall kitchen study) (item cup))
  (predicates (at room) (in item room) (held item))
  (action go (params (?from room) (?to room))
    (pre (k (at ?from)) (k (not (= ?from ?to))))
    (effects (unset (at ?from)) (set (at ?to)))
    (knows (kf (not (at ?from))) (kf (at ?to))))
  (action look (params (?i item) (?r room))
    (pre (k (at ?r)) (not-derived (kw (in ?i ?r))))
    (senses (sense (in ?i ?r)))
    (knows (kw (in ?i ?r))))
  (action pick (params (?i item) (?r room))
    (pre (k (at ?r)) (k (in ?i ?r)))
    (effects (set (held ?i)) (unset (in ?i ?r)))
    (knows (kf (held ?i)) (kf (not (in ?i ?r))))))
(problem
  (init (kf (at hall)) (kf (not (in cup hall)))
    (kx (in cup kitchen) (in cup study)))
  (goal (k (held cup)) (k (at hall))))
(world (true (at hall) (in cup study)))
