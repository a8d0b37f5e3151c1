; A robot goes from room a to room b.
; Shows: a place as the value of a function; assigning it needs no word on where one was.
; ./pks plan 1
(pks 1)
(domain
  (types room)
  (objects (room a b))
  (functions (here room))
  (action go (params (?r room)) (effects (assign (here) ?r))
    (knows (kf (= (here) ?r)))))
(problem (init (kf (= (here) a))) (goal (k (= (here) b))))
