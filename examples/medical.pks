; One of three illnesses. A stained sample turns blue, red or neither; the wrong medicine kills.
; Shows: a group, effects under conditions, and learning of the illness from the colour.
; ./pks plan 6
; ./pks exec 6
(pks 1)
(domain
  (types illness)
  (objects (illness flu pox gout))
  (predicates (has illness) (blue) (red) (stained) (dead))
  (action stain (pre (k (not (stained))))
    (effects (when ((has flu)) (set (blue))) (when ((has pox)) (set (red))) (set (stained)))
    (knows (kf (stained))))
  (action see-blue (pre (k (stained))) (senses (sense (blue))) (knows (kw (blue))))
  (action see-red (pre (k (stained))) (senses (sense (red))) (knows (kw (red))))
  (action treat (params (?i illness))
    (effects (when ((has ?i)) (unset (has ?i))) (when ((not (has ?i))) (set (dead))))
    (knows (if ((k (has ?i))) (kf (not (has ?i)))))))
(problem
  (init (kx (has flu) (has pox) (has gout))
    (kf (not (blue))) (kf (not (red))) (kf (not (stained))) (kf (not (dead))))
  (goal (k (not (has flu))) (k (not (has pox))) (k (not (has gout))) (k (not (dead)))))
(world (true (has gout)))
