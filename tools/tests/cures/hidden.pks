; What is told by an action of which another part is wrong shows once that is mended.
; at 20:5
; at 24:18
; at 17:12
; at 17:48
; at 23:3
; at 21:17
; says: Is `in` meant? Mended, line 21 is: (knows (kw (in ?i ?r))))) With this and what is mended above the next fault is `refused 17:48 260 action go effect 3`. 6 faults. Others may show when these are mended.
(pks 1)
(domain
  (types room item)
  (objects (room hall kitchen) (item cup))
  (predicates (at room) (in item room) (held item))
  (action go (params (?from room) (?to room))
    (pre (k (at ?from)))
    (effects (unset (at ?from)) (set (at ?to)))
    (knows (kf (not (at ?from))) (kf (at ?to)) (kf (held cup))))
  (action look (params (?i item) (?r room))
    (senses (sense (in ?i ?r)))
    (pre (k (at ?r)))
    (knows (kw (inn ?i ?r)))))
(problem
  (init (kf (at hall)) (kf (not (at hall))) (kx (in cup hall) (in cup kitchen)))
  (goal (k (held cupp))))
