; Behind a second world, and behind what has no cure, the others are told.
; at 32:44
; at 40:1
; at 29:51
; at 30:22
; at 36:14
; at 36:24
; at 37:16
; at 38:9
; at 38:47
; at 32:43
; at 33:27
; at 35:50
; at 37:54
; at 39:37
; says: (action look (params (?i item)) (pre (k (not (= here attic)))) With it the next fault is `refused 40:1 123`.
; says: (action go (params (?r room)) (pre (not-derived (k (= (here) ?r)))) With it this fault is gone.
; says: (effects (set (held ?i)) (in ?i _)) (knows (k (held ?i))))) With it this fault is gone.
; says: (goal (or (k (held cup)) (k (in cup hall))) (k (held cup)))) With it this fault is gone.
; says: (world (true (in cup hall)) (values ((here) hall))) With it this fault is gone.
; never: code 303
; never: the file is accepted
(pks 1)
(domain
  (types room item)
  (objects (room hall attic) (item cup))
  (predicates (in item room) (held item))
  (functions (here room))
  (action go (params (?r room)) (pre (not-derived (here ?r)))
    (effects (assign here ?r))
    (knows (kf (= here ?r))))
  (action look (params (?i item)) (pre (k (!= here attic)))
    (senses (sense (in ?i here)))
    (knows (kw (in ?i (here)))))
  (action pick (params (?i item)) (pre (k (in ?i here)))
    (effects (held ?i) (in ?i _)) (knows (k (held ?i)))))
(problem (init (here hall) (kx (in cup hall) (in cup atic)))
  (goal (or (k (held cup)) (k (in cup hall))) (forall (?i item) (held ?i))))
(world (true (in cup hall)) (values (= (here) hall)))
(world (true) (values ((here) hall)))
