; One of three gates is open, and the third leads nowhere.
(pks 1)
(domain
  (types gate room)
  (objects (gate g1 g2 g3) (room yard tower))
  (predicates (leads gate room room) (at room) (open gate))
  (action look (params (?g gate)) (senses (sense (open ?g))) (knows (kw (open ?g))))
  (action fly (params (?g gate) (?a room) (?b room))
    (pre (k (open ?g)) (k (leads ?g ?a ?b)) (k (at ?a)) (k (not (= ?a ?b))))
    (effects (unset (at ?a)) (set (at ?b))) (knows (kf (at ?b)) (kf (not (at ?a))))))
(problem
  (init (kf (leads g1 yard tower)) (kf (leads g2 yard tower)) (kf (at yard)) (kx (open g1) (open g2) (open g3)))
  (goal (k (at tower))))
