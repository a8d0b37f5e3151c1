; A door shall be shut at every moment, the first one too.
(pks 2)
(domain (predicates (shut) (done))
  (action look (senses (sense (shut))) (knows (kw (shut))))
  (action close (effects (set (shut))) (knows (kf (shut))))
  (action work (effects (set (done))) (knows (kf (done)))))
(problem (goal (always (k (shut))) (k (done))))
