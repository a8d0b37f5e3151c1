; The way to the tower is missing. That the robot is in the tower, too, would do, and can't be.
(pks 1)
(domain
  (types room)
  (objects (room yard tower))
  (predicates (way room room) (at room) (held))
  (action go (params (?a room) (?b room)) (pre (k (at ?a)) (k (way ?a ?b)) (k (not (= ?a ?b))))
    (effects (unset (at ?a)) (set (at ?b))) (knows (kf (at ?b)) (kf (not (at ?a)))))
  (action take (pre (k (at tower))) (effects (set (held))) (knows (kf (held)))))
(problem (init (kf (at yard))) (goal (k (held))))
