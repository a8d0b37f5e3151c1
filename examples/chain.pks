; Which of three links of a chain is broken? A ping tells whether all links up to a host are whole.
; Shows: sensing a conjunction, and a branch on it. On its false side one literal at most is learnt.
; ./pks plan 5
; ./pks exec 5
(pks 1)
(domain
  (types link)
  (objects (link l1 l2 l3))
  (predicates (ok link))
  (action ping-a (senses (sense (ok l1))) (knows (kw (ok l1))))
  (action ping-b (senses (sense (ok l1) (ok l2))) (knows (kw (ok l1) (ok l2))))
  (action repair (params (?l link)) (pre (k (not (ok ?l))))
    (effects (set (ok ?l))) (knows (kf (ok ?l)))))
(problem
  (init (kx (not (ok l1)) (not (ok l2)) (not (ok l3))))
  (goal (k (ok l1)) (k (ok l2)) (k (ok l3))))
(world (true (ok l1) (ok l2)))
