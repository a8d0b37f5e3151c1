; Seven faults, each of which can be found by itself.
; at 15:10
; at 24:14
; at 27:9
; at 20:21
; at 23:29
; at 27:45
; at 28:18
(pks 1)
(domain
  (types room item)
  (objects (room hall kitchen) (item cup))
  (predicates (at room) (in item room) (held item))
  (action go (params (?a room) (?b room))
    (pre (at ?a) (k (not (= ?a ?b))))
    (effects (unset (at ?a)) (set (at ?b)))
    (knows (kf (not (at ?a))) (kf (at ?b))))
  (action look (params (?i item) (?r room))
    (pre (k (at ?r)))
    (senses (sense (inn ?i ?r)))
    (knows (kw (in ?i ?r))))
  (action pick (params (?i item) (?r room))
    (pre (k (at ?r)) (k (in ?x ?r)))
    (effects (held ?i) (unset (in ?i ?r)))
    (knows (kf (held ?i)) (kf (not (in ?i ?r))))))
(problem
  (init (at hall) (kx (in cup hall) (in cup kitchn)))
  (goal (k (held cupp))))
