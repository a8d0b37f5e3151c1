; One of eighteen codes is shown, and it is one of the last two: the others aren't ruled out, so there are no cases.
(pks 1)
(domain
  (types code)
  (objects (code v0 v1 v2 v3 v4 v5 v6 v7 v8 v9 v10 v11 v12 v13 v14 v15 v16 v17))
  (predicates (done))
  (functions (shown code))
  (action read (senses (sense-value (shown))) (knows (kv (shown))))
  (action press (pre (k (= (shown) v16))) (effects (set (done))) (knows (kf (done))))
  (action turn (pre (k (= (shown) v17))) (effects (set (done))) (knows (kf (done)))))
(problem (init (kx (= (shown) v17) (= (shown) v16))) (goal (k (done))))
