; The paper with the combination of a safe lies in one of two drawers: find, read, dial, take.
; Shows: guards. A look or a dial that can teach or change nothing more is no choice.
; ./pks plan 7
(pks 1)
(domain
  (types drawer num)
  (objects (drawer top bottom) (num n1 n2 n3 n4 n5 n6 n7 n8 n9 n10))
  (predicates (paper-in drawer) (open drawer) (held) (safe-open) (money))
  (functions (combo num))
  (action pull (params (?d drawer)) (pre (not-derived (k (open ?d))))
    (effects (set (open ?d))) (senses (sense (paper-in ?d)))
    (knows (kf (open ?d)) (kw (paper-in ?d))))
  (action take-paper (params (?d drawer)) (pre (k (paper-in ?d)) (k (open ?d)))
    (effects (unset (paper-in ?d)) (set (held)))
    (knows (kf (not (paper-in ?d))) (kf (held))))
  (action read-paper (pre (k (held)) (not-derived (kv (combo))))
    (senses (sense-value (combo))) (knows (kv (combo))))
  (action dial (params (?x num)) (pre (k (= ?x (combo))) (not-derived (k (safe-open))))
    (effects (when ((= ?x (combo))) (set (safe-open))))
    (knows (kf (safe-open))))
  (action take-money (pre (k (safe-open)) (not-derived (k (money))))
    (effects (set (money))) (knows (kf (money)))))
(problem
  (init (kx (paper-in top) (paper-in bottom)))
  (goal (k (money))))
