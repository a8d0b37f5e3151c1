; A thing is in one of two boxes, and which one will be known: grab that box.
; Shows: types with parents. The value of spot is a box, and a box is a thing.
; ./pks plan 1
(pks 2)
(domain
  (types thing (box thing) (bag thing))
  (objects (box b1 b2) (bag g1))
  (predicates (got thing))
  (functions (spot box))
  (action grab (params (?x thing))
    (effects (set (got ?x))) (knows (kf (got ?x)))))
(problem (init (kv (spot))) (goal (k (got (spot)))))
