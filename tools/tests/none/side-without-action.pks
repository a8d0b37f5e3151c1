; A part that was tested is shipped where it is sound; what is done with one that isn't is missing.
(pks 1)
(domain (predicates (sound) (done))
  (action test (senses (sense (sound))) (knows (kw (sound))))
  (action ship (pre (k (sound))) (effects (set (done))) (knows (kf (done)))))
(problem (goal (k (done))))
