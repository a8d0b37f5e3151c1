; One of four links of a chain is bad. A ping tells of one end link, or of the first half.
; Shows: overlapping groups, by which halving can be said: depth 5 where one by one needs 7.
; ./pks plan 5
(pks 1)
(domain
  (types link)
  (objects (link l1 l2 l3 l4))
  (predicates (bad link) (bad-half) (service))
  (action ping-first (senses (sense (bad l1))) (knows (kw (bad l1))))
  (action ping-last (senses (sense (bad l4))) (knows (kw (bad l4))))
  (action ping-half (senses (sense (bad-half))) (knows (kw (bad-half))))
  (action repair (params (?l link)) (pre (k (bad ?l)))
    (effects (set (service))) (knows (kf (service)))))
(problem
  (init (kx (bad l1) (bad l2) (bad l3) (bad l4))
    (kx (bad l1) (bad l2) (not (bad-half)))
    (kx (bad-half) (bad l3) (bad l4)))
  (goal (k (service))))
