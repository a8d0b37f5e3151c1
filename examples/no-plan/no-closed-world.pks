; A robot must end in the hall with the door shut; nobody said that the door is shut now.
; Cause: what isn't listed isn't false. The file needs the negative, or a sense of it.
; ./pks plan 4
(pks 1)
(domain
  (predicates (in-hall) (door-open))
  (action enter (effects (set (in-hall))) (knows (kf (in-hall)))))
(problem (goal (k (in-hall)) (k (not (door-open)))))
