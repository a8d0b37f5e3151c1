; world place without parentheses
; says: code 300
; says: `((pwd) home)`
(pks 2)
(domain
  (types node (dir node) (file node))
  (objects (dir home docs backup) (file paper core))
  (predicates (in file dir) (sub dir dir) (listed dir))
  (functions (pwd dir))
  (action cd (params (?d dir)) (pre (k (sub ?d (pwd))))
    (effects (assign (pwd) ?d)) (knows (kf (= (pwd) ?d))))
  (action cd-up (params (?d dir)) (pre (k (sub (pwd) ?d)))
    (effects (assign (pwd) ?d)) (knows (kf (= (pwd) ?d))))
  (action ls (pre (not-derived (k (listed (pwd)))))
    (effects (set (listed (pwd))))
    (senses (sense-all (in _ (pwd))))
    (knows (kw (in paper (pwd))) (kw (in core (pwd))) (kf (listed (pwd)))))
  (action cp (params (?f file) (?t dir)) (pre (k (in ?f (pwd))))
    (effects (set (in ?f ?t))) (knows (kf (in ?f ?t)))))
(problem
  (init (kf (= (pwd) home)) (kf (sub docs home)) (kf (sub backup home))
    (kx (in paper home) (in paper docs)) (lcw (listed _)))
  (goal (k (in paper backup)) (k (= (pwd) home))))
(world
  (true (in paper docs) (in core docs) (sub docs home) (sub backup home))
  (values (pwd home)))
