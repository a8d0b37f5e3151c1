; The way leads from c to b, and not back.
(pks 1)
(domain (types room) (objects (room a b c)) (predicates (at room) (way room room))
  (action go (params (?x room) (?y room)) (pre (k (at ?x)) (k (way ?x ?y)) (k (not (= ?x ?y))))
    (effects (unset (at ?x)) (set (at ?y))) (knows (kf (not (at ?x))) (kf (at ?y)))))
(problem (init (kf (at a)) (kf (way a b)) (kf (way c b))) (goal (k (at c))))
