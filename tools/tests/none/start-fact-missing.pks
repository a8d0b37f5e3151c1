; A robot fetches a cup; nobody says where the robot is.
(pks 1)
(domain (types room) (objects (room hall kitchen)) (predicates (at room) (has-cup))
  (action go (params (?a room) (?b room)) (pre (k (at ?a)) (k (not (= ?a ?b))))
    (effects (unset (at ?a)) (set (at ?b))) (knows (kf (not (at ?a))) (kf (at ?b))))
  (action take (pre (k (at kitchen))) (effects (set (has-cup))) (knows (kf (has-cup)))))
(problem (goal (k (has-cup))))
