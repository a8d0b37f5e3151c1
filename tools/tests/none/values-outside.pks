; A cup is in one of two rooms by a group of values. That it isn't in the third is asked, and not known.
(pks 1)
(domain (types room) (objects (room hall study attic)) (predicates (swept)) (functions (cup room))
  (action sweep (pre (k (not (= (cup) attic)))) (effects (set (swept))) (knows (kf (swept)))))
(problem (init (kx (= (cup) hall) (= (cup) study))) (goal (k (swept))))
