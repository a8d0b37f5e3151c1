; The same, and the start says that the door isn't open.
; ./pks plan 4
(pks 1)
(domain
  (predicates (in-hall) (door-open))
  (action enter (effects (set (in-hall))) (knows (kf (in-hall)))))
(problem
  (init (kf (not (door-open))))
  (goal (k (in-hall)) (k (not (door-open)))))
