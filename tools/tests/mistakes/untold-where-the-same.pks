; a move that tells of neither effect, and whose rooms may be the same
; says: accepted
; says: ask in `pre` that they differ, `(k (not (= ?a ?b)))`, and add `(kf (not (at ?a)))`.
(pks 1)
(domain
  (types room)
  (objects (room hall kitchen))
  (predicates (at room) (lit))
  (action go (params (?a room) (?b room))
    (pre (k (at ?a)))
    (effects (unset (at ?a)) (set (at ?b)) (set (lit)))
    (knows (kf (lit)))))
(problem
  (init (kf (at hall)))
  (goal (k (lit))))
