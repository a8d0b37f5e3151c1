; As joint-sense, with three things, and places to which each may be carried. Nothing is told of what `carry` does, so the
; past stays open, and the search for all goals doesn't end; with one of them alone a change can be asked.
(pks 1)
(domain
  (types item place)
  (objects (item can jar tin) (place p1 p2 p3 p4 p5))
  (predicates (metal item) (heavy item) (wet item) (sorted item) (on item place) (next place place) (boxed item))
  (action weigh (params (?i item))
    (senses (sense (metal ?i) (heavy ?i))) (knows (kw (metal ?i) (heavy ?i))))
  (action carry (params (?i item) (?p place))
    (effects (when ((wet ?i)) (set (on ?i ?p)))))
  (action box (params (?i item)) (pre (kw (metal ?i)))
    (effects (set (boxed ?i))) (knows (kf (boxed ?i))))
  (action sort-metal (params (?i item)) (pre (k (metal ?i)) (k (boxed ?i)))
    (effects (set (sorted ?i))) (knows (kf (sorted ?i))))
  (action sort-other (params (?i item)) (pre (k (not (metal ?i))) (k (boxed ?i)))
    (effects (set (sorted ?i))) (knows (kf (sorted ?i)))))
(problem
  (init (kf (next p1 p2)) (kf (next p2 p3)) (kf (next p3 p4)) (kf (next p4 p5)))
  (goal (k (sorted can)) (k (sorted jar)) (k (sorted tin))))
