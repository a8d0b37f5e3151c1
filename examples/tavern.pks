; Three guests are served: it is asked what each wants, and one drink is carried at a time.
; Shows: a plan that branches on each guest, and whose orders are many; not-derived keeps one from asking twice.
; ./pks plan 12
; ./pks exec 12
(pks 1)
(domain
  (types guest drink)
  (objects (guest ann bob cid) (drink ale tea))
  (predicates (wants guest drink) (asked guest) (holds drink) (free) (served guest))
  (action ask (params (?g guest))
    (pre (not-derived (k (asked ?g))))
    (effects (set (asked ?g)))
    (senses (sense (wants ?g ale)))
    (knows (kf (asked ?g)) (kw (wants ?g ale))))
  (action draw (params (?d drink))
    (pre (k (free)))
    (effects (set (holds ?d)) (unset (free)))
    (knows (kf (holds ?d)) (kf (not (free)))))
  (action serve (params (?g guest) (?d drink))
    (pre (k (holds ?d)) (k (wants ?g ?d)))
    (effects (unset (holds ?d)) (set (free)) (set (served ?g)))
    (knows (kf (not (holds ?d))) (kf (free)) (kf (served ?g)))))
(problem
  (init (kf (free))
    (kf (not (served ann))) (kf (not (served bob))) (kf (not (served cid)))
    (kx (wants ann ale) (wants ann tea)) (kx (wants bob ale) (wants bob tea)) (kx (wants cid ale) (wants cid tea)))
  (goal (k (served ann)) (k (served bob)) (k (served cid))))
(world
  (true (free) (wants ann tea) (wants bob ale) (wants cid tea)))
