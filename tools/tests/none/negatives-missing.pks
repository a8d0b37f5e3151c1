; Only a closed box can be opened, and nobody says that the boxes are closed.
(pks 1)
(domain (types box) (objects (box a b)) (predicates (open box))
  (action open (params (?b box)) (pre (k (not (open ?b)))) (effects (set (open ?b))) (knows (kf (open ?b)))))
(problem (goal (k (open a)) (k (open b))))
