; Each of two queries needs what isn't known at the start.
(pks 1)
(domain (predicates (on) (lamp) (warm) (cooked))
  (action switch (pre (k (not (on)))) (effects (set (on))) (knows (kf (on))))
  (action light (pre (k (on))) (effects (set (lamp))) (knows (kf (lamp))))
  (action heat (pre (k (on))) (effects (set (warm))) (knows (kf (warm))))
  (action cook (pre (k (lamp)) (k (warm))) (effects (set (cooked))) (knows (kf (cooked)))))
(problem (goal (k (cooked))))
