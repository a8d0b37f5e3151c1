; a skin test that tells the redness gone which it may make
; says: code 260
; says: The later `(when ((allergic ?f)) (set (red)))` may undo it.
; says: a sense finds it out, in this action or a later one
(pks 1)
(domain
  (types food)
  (objects (food nuts milk))
  (predicates (allergic food) (red) (tested food))
  (action skin-test (params (?f food))
    (effects (unset (red)) (when ((allergic ?f)) (set (red))) (set (tested ?f)))
    (knows (kf (not (red))) (kf (tested ?f))))
  (action look (senses (sense (red))) (knows (kw (red)))))
(problem
  (init (kx (allergic nuts) (allergic milk)))
  (goal (k (tested nuts))))
