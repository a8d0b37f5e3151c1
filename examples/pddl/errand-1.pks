; A cup is in one of three rooms, none of which is locked; the plan goes where the answer says.
; ./pks plan 4
; Written by tools/from-pddl from examples/pddl/errand.pddl and examples/pddl/errand-1.pddl, to be
;   read and changed.
(pks 1)
(domain
  (types room thing)
  (objects (room hall kitchen study) (thing cup))
  (predicates (held thing) (locked room))
  (functions (here room) (place thing room))

  ; From then on the robot knows the room, whichever it is.
  (action ask (params (?x thing))
    (senses (sense-value (place ?x)))
    (knows (kv (place ?x))))

  (action go (params (?to room))
    (pre (k (not (locked ?to))))
    (effects (assign (here) ?to))
    (knows (kf (= (here) ?to)) (kv (here))))

  (action pick (params (?x thing))
    (pre (k (= (here) (place ?x))))
    (effects (set (held ?x)))
    (knows (kf (held ?x))))

  ; The door tells by a lamp.
  (action look-at-lamp (params (?r room))
    (senses (sense (locked ?r)))
    (knows (kw (locked ?r))))

  (action unlock (params (?r room))
    (pre (k (locked ?r)))
    (effects (unset (locked ?r)))
    (knows (kf (not (locked ?r))))))

(problem
  (init
    (kf (= (here) hall))
    ; All else is false.
    (lcw (locked _)) (kf (not (held cup)))
    (kx (= (place cup) hall) (= (place cup) kitchen) (= (place cup) study)))
  (goal (k (held cup)) (k (= (here) hall))))
