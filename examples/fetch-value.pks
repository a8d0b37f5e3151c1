; The same errand with places as values: the robot senses at once in which room the cup is.
; Shows: a run-time value as an argument, (go (loc cup)): no branch, whatever the number of rooms.
; ./pks plan 4
; ./pks exec 4
(pks 1)
(domain
  (types room item)
  (objects (room hall kitchen study bedroom cellar) (item cup))
  (predicates (held item))
  (functions (here room) (loc item room))
  (action go (params (?to room)) (pre (not-derived (k (= (here) ?to))))
    (effects (assign (here) ?to)) (knows (kf (= (here) ?to))))
  (action ask (params (?i item)) (pre (not-derived (kv (loc ?i))))
    (senses (sense-value (loc ?i))) (knows (kv (loc ?i))))
  (action pick (params (?i item)) (pre (k (= (loc ?i) (here))))
    (effects (set (held ?i))) (knows (kf (held ?i)))))
(problem
  (init (kf (= (here) hall)))
  (goal (k (held cup)) (k (= (here) hall))))
(world (values ((here) hall) ((loc cup) cellar)))
