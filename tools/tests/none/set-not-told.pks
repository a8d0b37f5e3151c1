; A robot goes, and its `knows` doesn't tell where it is then.
(pks 1)
(domain (types room) (objects (room hall kitchen)) (predicates (at room) (has-cup))
  (action go (params (?a room) (?b room)) (pre (k (at ?a)) (k (not (= ?a ?b))))
    (effects (unset (at ?a)) (set (at ?b))))
  (action take (pre (k (at kitchen))) (effects (set (has-cup))) (knows (kf (has-cup)))))
(problem (init (kf (at hall))) (goal (k (has-cup))))
