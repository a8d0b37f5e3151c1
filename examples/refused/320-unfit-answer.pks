; An answer that names no object of the type.
; ./pks agent 1
(pks 1)
(domain (types t) (objects (t a b)) (predicates (open)) (functions (f t))
  (action try (params (?x t)) (pre (k (= ?x (f)))) (effects (set (open))) (knows (kf (open)))))
(problem (init (kv (f))) (goal (k (open))))
.
c
