; The same, and the robot is known not to be in the hall: so the key there is safe.
; ./pks plan 4
(pks 1)
(domain
  (types place thing)
  (objects (place hall den) (thing key))
  (predicates (at thing place) (swept))
  (functions (here place))
  (action sweep (effects (unset (at key (here))) (set (swept)))
    (knows (kf (swept)))))
(problem
  (init (kf (at key hall)) (kf (not (= (here) hall))))
  (goal (k (swept)) (k (at key hall))))
