; a fact told without its condition, beside whether it is so
; says: (knows (if ((k (fits ?k))) (kf (open))) (kw (open))))
; says: With it the file is accepted.
(pks 1)
(domain (types key) (objects (key k1 k2)) (predicates (fits key) (open))
  (action turn (params (?k key))
    (effects (when ((fits ?k)) (set (open))))
    (senses (sense (open)))
    (knows (kf (open)) (kw (open)))))
(problem (init (kx (fits k1) (fits k2))) (goal (k (open))))
