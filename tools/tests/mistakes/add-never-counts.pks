; an add that never counts
; says: accepted
; says: The add `(kf (= (place ?l) (here)))` of `drop` never counts.
; says: Declare `here` before `place` in `functions`.
; says: why-none
(pks 1)
(domain
  (types letter person room)
  (objects (letter l1 l2) (person ann bob cid) (room lobby r1 r2 r3))
  (predicates (absent person))
  (functions (to letter person) (office person room) (place letter room) (here room))
  (action read (params (?l letter)) (pre (not-derived (kv (to ?l))))
    (senses (sense-value (to ?l))) (knows (kv (to ?l))))
  (action ask (params (?p person)) (pre (k (= (here) lobby)) (not-derived (kv (office ?p))))
    (senses (sense-value (office ?p))) (knows (kv (office ?p))))
  (action go (params (?r room)) (pre (not-derived (k (= (here) ?r))))
    (effects (assign (here) ?r)) (knows (kf (= (here) ?r))))
  (action drop (params (?l letter))
    (effects (assign (place ?l) (here))) (knows (kf (= (place ?l) (here))))))
(problem
  (init (kf (= (here) lobby)))
  (goal (k (= (place l1) (office (to l1)))) (k (= (here) lobby))))
