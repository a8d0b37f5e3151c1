; Things of metal go to one place, all others to another. `weigh` finds out only whether a thing is both of metal and heavy.
(pks 1)
(domain
  (types item)
  (objects (item can))
  (predicates (metal item) (heavy item) (sorted item))
  (action weigh (params (?i item))
    (senses (sense (metal ?i) (heavy ?i))) (knows (kw (metal ?i) (heavy ?i))))
  (action sort-metal (params (?i item)) (pre (k (metal ?i)))
    (effects (set (sorted ?i))) (knows (kf (sorted ?i))))
  (action sort-other (params (?i item)) (pre (k (not (metal ?i))))
    (effects (set (sorted ?i))) (knows (kf (sorted ?i)))))
(problem
  (goal (k (sorted can))))
