; A gate leads from the yard to the tower, and the robot is in the tower.
(pks 1)
(domain
  (types gate room)
  (objects (gate g1 g2) (room yard tower))
  (predicates (leads gate room room) (at room))
  (action go (params (?g gate) (?a room) (?b room)) (pre (k (leads ?g ?a ?b)) (k (at ?a)) (k (not (= ?a ?b))))
    (effects (unset (at ?a)) (set (at ?b))) (knows (kf (at ?b)) (kf (not (at ?a))))))
(problem (init (kf (leads g1 yard tower)) (kf (at tower))) (goal (k (at yard))))
