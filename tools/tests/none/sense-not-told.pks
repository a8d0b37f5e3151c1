; A robot looks, and its `knows` doesn't tell what it sees.
(pks 1)
(domain (types box) (objects (box a b)) (predicates (in box) (got))
  (action look (params (?b box)) (senses (sense (in ?b))))
  (action take (params (?b box)) (pre (k (in ?b))) (effects (set (got))) (knows (kf (got)))))
(problem (init (kx (in a) (in b))) (goal (k (got))))
