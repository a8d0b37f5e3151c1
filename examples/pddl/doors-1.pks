; Two doors lead to the garden, and one of them is open.
; ./pks plan 3
; Written by tools/from-pddl from examples/pddl/doors.pddl and examples/pddl/doors-1.pddl, to be
;   read and changed.
(pks 1)
(domain
  (types room door)
  (objects (room hall garden) (door left right))
  (predicates (at room) (joins door room room) (open door))

  (action look (params (?d door) (?from room) (?to room))
    (pre (k (at ?from)) (k (joins ?d ?from ?to)))
    (senses (sense (open ?d)))
    (knows (kw (open ?d))))

  (action walk (params (?from room) (?to room) (?d door))
    (pre (k (at ?from)) (k (joins ?d ?from ?to)) (k (open ?d)) (k (not (= ?from ?to))))
    (effects (unset (at ?from)) (set (at ?to)))
    (knows (kf (not (at ?from))) (kf (at ?to)))))

(problem
  ; Unknown: (open left) (open right)
  (init
    (kf (at hall))
    (kf (joins left hall garden)) (kf (joins right hall garden))
    ; All else is false.
    (lcw (joins left _ _)) (lcw (joins right _ _)) (kf (not (at garden)))
    (kx (open left) (open right)))
  (goal (k (at garden))))
