; The hall is swept when the robot has left it. PDDL has the plan go hall garden, sweep hall.
; ./pks plan 4
; Written by tools/from-pddl from examples/pddl/move.pddl and examples/pddl/move-1.pddl, to be read
;   and changed.
(pks 1)
(domain
  (types room)
  (objects (room hall garden))
  (predicates (at room) (swept room))

  (action go (params (?from room) (?to room))
    ; (not (at ?from)) isn't known afterwards: (at ?to) may be about the same. With
    ;   (k (not (= ?from ?to))) in pre it is.
    (pre (k (at ?from)))
    (effects (unset (at ?from)) (set (at ?to)))
    (knows (kf (at ?to))))

  ; Nobody may stand there.
  (action sweep (params (?r room))
    (pre (k (not (at ?r))))
    (effects (set (swept ?r)))
    (knows (kf (swept ?r)))))

(problem
  (init
    (kf (at hall))
    ; All else is false.
    (kf (not (at garden))) (kf (not (swept hall))) (kf (not (swept garden))))
  (goal (k (swept hall))))
