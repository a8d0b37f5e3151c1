; a predicate with a word behind it that is no type
; says: Behind the name `open` stand the types of its arguments.
(pks 1)
(domain
  (types bed)
  (objects (bed basil))
  (predicates (open vent) (wet bed))
  (action water (params (?b bed)) (effects (set (wet ?b))) (knows (kf (wet ?b)))))
(problem (goal (k (wet basil))))
