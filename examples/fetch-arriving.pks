; The errand of fetch.pks once more: whoever enters a room sees whether the cup is there.
; Shows: an action that acts and senses. What was two steps is one, so the plan is less deep.
; ./pks plan 5
; ./pks exec 5
(pks 1)
(domain
  (types room item)
  (objects (room hall kitchen study) (item cup))
  (predicates (in item room) (held item))
  (functions (here room))
  (action go (params (?to room)) (pre (not-derived (k (= (here) ?to))))
    (effects (assign (here) ?to))
    (senses (sense (in cup ?to)))
    (knows (kf (= (here) ?to)) (kw (in cup ?to))))
  (action pick (params (?i item)) (pre (k (in ?i (here))))
    (effects (set (held ?i)) (unset (in ?i (here))))
    (knows (kf (held ?i)) (kf (not (in ?i (here)))))))
(problem
  (init (kf (= (here) hall)) (kf (not (in cup hall)))
    (kx (in cup kitchen) (in cup study)))
  (goal (k (held cup)) (k (= (here) hall))))
(world (true (in cup kitchen)) (values ((here) hall)))
