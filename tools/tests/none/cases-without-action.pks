; A lamp is red, blue, grey or green. There is an action for red and one for blue, and none for the others.
(pks 1)
(domain (types colour) (objects (colour red blue grey green)) (predicates (sorted)) (functions (hue colour))
  (action look (senses (sense-value (hue))) (knows (kv (hue))))
  (action left (pre (k (= (hue) red))) (effects (set (sorted))) (knows (kf (sorted))))
  (action right (pre (k (= (hue) blue))) (effects (set (sorted))) (knows (kf (sorted)))))
(problem (goal (k (sorted))))
