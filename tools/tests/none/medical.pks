; Somebody has one of two illnesses, and medication makes the one that it is for the illness i0, which is none.
; As it was written by tools/from-pddl.
(pks 1)
(domain
  (types object)
  (objects (object i0 i1 i2))
  (predicates (ill object) (ndead) (stain object) (test-done) (s0) (s1) (dry) (broken object)
    (both-1) (both-2))

  (action medicate (params (?i object))
    ; (not (ill ?i)) isn't known afterwards: (ill i0) may be about the same. With
    ;   (k (not (= ?i i0))) in pre it is.
    (pre (k (ill ?i)) (k (ndead)))
    (effects (unset (ill ?i)) (set (ill i0)))
    (knows (kf (ill i0))))

  (action stain
    (pre (k (not (test-done))))
    (effects (set (test-done)) (when ((ill i1)) (set (s1))) (when ((ill i2)) (set (s0))))
    (knows (kf (test-done)) (if ((k (ill i1))) (kf (s1))) (if ((kw (ill i1)) (kw (s1))) (kw (s1)))
      (if ((k (ill i2))) (kf (s0))) (if ((kw (ill i2)) (kw (s0))) (kw (s0)))))

  (action inspect-s1
    (pre (k (test-done)))
    (senses (sense (s1)))
    (knows (kw (s1)))))


(problem
  ; Unknown: (ill i1) (ill i2) (dry) (broken i1) (broken i0) (broken i2)
  (init
    (kf (ndead))
    ; All else is false.
    (lcw (stain _)) (kf (not (ill i0))) (kf (not (test-done))) (kf (not (s0))) (kf (not (s1)))
    (kx (ill i1) (ill i2))
    ; (or (broken i0) (broken i2)); (both-1) is true where both are
    (kx (not (broken i0)) (not (broken i2)) (both-1))
    ; (or (not (broken i1)) (dry)); (both-2) is true where both are
    (kx (broken i1) (not (dry)) (both-2)))
  (goal (k (ill i0)) (k (not (ill i1))) (k (not (ill i2))) (k (ndead))))
