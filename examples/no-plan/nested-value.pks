; A courier asks where the addressee is, who is known at run time only, and goes there.
; Cause: a value of a value, (room-of (addressee)), can't be the argument of an action.
; ./pks plan 5
(pks 1)
(domain
  (types room person)
  (objects (room r1 r2 r3 r4 r5 r6 r7 r8 r9 r10 r11 r12 r13 r14 r15 r16 r17)
    (person p1 p2 p3 p4 p5 p6 p7 p8 p9 p10 p11 p12 p13 p14 p15 p16 p17))
  (predicates (delivered))
  (functions (here room) (room-of person room) (addressee person))
  (action read-label (pre (not-derived (kv (addressee))))
    (senses (sense-value (addressee))) (knows (kv (addressee))))
  (action phone (pre (kv (addressee)) (not-derived (kv (room-of (addressee)))))
    (senses (sense-value (room-of (addressee)))) (knows (kv (room-of (addressee)))))
  (action go (params (?r room)) (pre (kv (room-of (addressee))) (not-derived (kv (here))))
    (effects (assign (here) ?r)) (knows (kf (= (here) ?r))))
  (action deliver (pre (k (= (here) (room-of (addressee)))))
    (effects (set (delivered))) (knows (kf (delivered)))))
(problem (goal (k (delivered))))
