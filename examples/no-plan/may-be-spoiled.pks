; A robot sweeps the room in which it is, and with it a key that may lie there.
; Cause: an action spoils what it may change. The robot may be in the hall, as far as is known.
; ./pks plan 4
(pks 1)
(domain
  (types place thing)
  (objects (place hall den) (thing key))
  (predicates (at thing place) (swept))
  (functions (here place))
  (action sweep (effects (unset (at key (here))) (set (swept)))
    (knows (kf (swept)))))
(problem
  (init (kf (at key hall)))
  (goal (k (swept)) (k (at key hall))))
