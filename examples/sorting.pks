; A light can belongs into the blue bin, a heavy one into the red bin; what it weighs isn't known.
; Shows: a goal under a condition. The goal asks for a fact that is set where the condition holds.
; ./pks plan 3
(pks 1)
(domain
  (types item bin level)
  (objects (item can) (bin blue red) (level light heavy))
  (predicates (in item bin) (sorted item))
  (functions (weight item level))
  (action weigh (params (?i item)) (pre (not-derived (kv (weight ?i))))
    (senses (sense-value (weight ?i))) (knows (kv (weight ?i))))
  (action put (params (?i item) (?b bin)) (pre (not-derived (k (in ?i ?b))))
    (effects (set (in ?i ?b))
      (when ((= (weight ?i) light) (= ?b blue)) (set (sorted ?i)))
      (when ((= (weight ?i) heavy) (= ?b red)) (set (sorted ?i))))
    (knows (kf (in ?i ?b))
      (if ((k (= (weight ?i) light)) (k (= ?b blue))) (kf (sorted ?i)))
      (if ((k (= (weight ?i) heavy)) (k (= ?b red))) (kf (sorted ?i))))))
(problem (goal (k (sorted can))))
