; A fault in the middle has no cure.
; at 17:10
; at 20:31
; at 21:45
; at 23:25
; says: (action light (params (?r room)) (pre (k (lit ?r))) With it this fault is gone.
; says: (problem (init (kf (lit hall))) (goal (k (lit hall)))) With it this fault is gone.
; says: 4 faults. Others may show when these are mended.
; never: the file is accepted
(pks 1)
(domain
  (types room)
  (objects (room hall attic))
  (predicates (lit room) (door room room room))
  (functions (here room))
  (action go (params (?r room))
    (pre (here hall) (k (not (lit attic))))
    (effects (assign (here) ?r)) (knows (kf (= (here) ?r))))
  (action burn (params (?r room)) (pre (k (lit ?r)))
    (effects (clear (door _ _ _))))
  (action light (params (?r room)) (pre (k (lti ?r)))
    (effects (set (lit ?r))) (knows (kf (lit ?r)))))
(problem (init (kf (lit hal))) (goal (k (lit hall))))
