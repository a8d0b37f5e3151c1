; A robot fetches a part from the store, and must be back at the dock. The way back from the shop to the dock isn't written.
(pks 1)
(domain
  (types room)
  (objects (room dock shop store))
  (predicates (way room room) (held))
  (functions (here room))
  (action go (params (?a room) (?b room)) (pre (k (= (here) ?a)) (k (way ?a ?b)))
    (effects (assign (here) ?b)) (knows (kf (= (here) ?b))))
  (action take (pre (k (= (here) store)))
    (effects (set (held))) (knows (kf (held)))))
(problem
  (init (kf (= (here) dock)) (kf (way dock shop)) (kf (way shop store)) (kf (way store shop)))
  (goal (k (held)) (k (= (here) dock))))
