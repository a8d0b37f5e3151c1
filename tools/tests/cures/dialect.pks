(pks 1.0)
(Domain
  (types room)
  (objects (room hall kitchen))
  (predicates (at room) (lit room))
  (functions (loc room))
  (action go :parameters (?x room)
    (pre (kv (lit ?x)))
    (effects (unset (at ?x)) (toggle (lit ?x)) (increase (total-cost) 2))
    (knows (kf (at ?x)))))
(problem (init (kf (at hall)))
  (:goal (k (at kitchen))))
; at 1:7
; at 7:14
; at 2:1
; at 9:30
; at 9:48
; at 8:15
; at 10:12
