; A parcel is in one of seventeen lockers; which one will be known at run time.
; Cause: cases are made of at most sixteen objects that are left.
; ./pks plan 4
(pks 1)
(domain
  (types locker)
  (objects (locker c1 c2 c3 c4 c5 c6 c7 c8 c9
    c10 c11 c12 c13 c14 c15 c16 c17))
  (predicates (key locker) (found))
  (functions (holds locker))
  (action unlock (params (?l locker)) (pre (k (= (holds) ?l)) (k (key ?l)))
    (effects (set (found))) (knows (kf (found)))))
(problem
  (init (kv (holds))
    (kf (key c1)) (kf (key c2)) (kf (key c3)) (kf (key c4)) (kf (key c5)) (kf (key c6))
    (kf (key c7)) (kf (key c8)) (kf (key c9)) (kf (key c10)) (kf (key c11)) (kf (key c12))
    (kf (key c13)) (kf (key c14)) (kf (key c15)) (kf (key c16)) (kf (key c17)))
  (goal (k (found))))
