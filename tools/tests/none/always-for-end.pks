; The lid is to be shut at the end, and is asked to be shut always.
(pks 2)
(domain (predicates (shut) (filled))
  (action open (effects (unset (shut))) (knows (kf (not (shut)))))
  (action close (effects (set (shut))) (knows (kf (shut))))
  (action fill (pre (k (not (shut)))) (effects (set (filled))) (knows (kf (filled)))))
(problem (init (kf (shut))) (goal (k (filled)) (always (k (shut)))))
