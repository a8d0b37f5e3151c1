; Five illnesses, each with a colour of its own: stain, look at the colour, treat.
; Shows: cases, one child for each value that is left. The depth doesn't grow with the illnesses.
; ./pks plan 4
; ./pks exec 4
; ./pks shared 4
(pks 1)
(domain
  (types illness colour)
  (objects (illness flu pox gout rash mumps) (colour clear blue red green black))
  (predicates (has illness) (stained) (dead))
  (functions (hue colour))
  (action stain (pre (k (not (stained))))
    (effects (when ((has flu)) (assign (hue) blue)) (when ((has pox)) (assign (hue) red))
      (when ((has gout)) (assign (hue) green)) (when ((has rash)) (assign (hue) black))
      (set (stained)))
    (knows (kf (stained))))
  (action look (pre (k (stained))) (senses (sense-value (hue))) (knows (kv (hue))))
  (action treat (params (?i illness))
    (effects (when ((has ?i)) (unset (has ?i))) (when ((not (has ?i))) (set (dead))))
    (knows (if ((k (has ?i))) (kf (not (has ?i)))))))
(problem
  (init (kx (has flu) (has pox) (has gout) (has rash) (has mumps))
    (kf (= (hue) clear)) (kf (not (stained))) (kf (not (dead))))
  (goal (k (not (has flu))) (k (not (has pox))) (k (not (has gout)))
    (k (not (has rash))) (k (not (has mumps))) (k (not (dead)))))
(world (true (has rash)) (values ((hue) clear)))
