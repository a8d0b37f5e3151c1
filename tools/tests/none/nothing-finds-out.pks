; A cell whose door one of three keys opens. Nothing tells which: no action finds out whether a key fits.
(pks 1)
(domain
  (types key)
  (objects (key brass iron bone))
  (predicates (held key) (fits key) (unlocked) (out))
  (action take (params (?k key)) (effects (set (held ?k))) (knows (kf (held ?k))))
  (action unlock (params (?k key)) (pre (k (held ?k)) (k (fits ?k)))
    (effects (set (unlocked))) (knows (kf (unlocked))))
  (action leave (pre (k (unlocked))) (effects (set (out))) (knows (kf (out)))))
(problem
  (init (kx (fits brass) (fits iron) (fits bone)))
  (goal (k (out))))
