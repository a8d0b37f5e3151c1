; Two rows of two doors; in each row one is open.
; ./pks plan 6
; Written by tools/from-pddl from examples/pddl/doors.pddl and examples/pddl/doors-2.pddl, to be
;   read and changed.
(pks 1)
(domain
  (types room door)
  (objects (room hall court garden) (door d1 d2 e1 e2))
  (predicates (at room) (joins door room room) (open door))

  (action look (params (?d door) (?from room) (?to room))
    (pre (k (at ?from)) (k (joins ?d ?from ?to)))
    (senses (sense (open ?d)))
    (knows (kw (open ?d))))

  (action walk (params (?from room) (?to room) (?d door))
    (pre (k (at ?from)) (k (joins ?d ?from ?to)) (k (open ?d)) (k (not (= ?from ?to))))
    (effects (unset (at ?from)) (set (at ?to)))
    (knows (kf (not (at ?from))) (kf (at ?to)))))

(problem
  ; Unknown: (open d1) (open d2) (open e1) (open e2)
  (init
    (kf (at hall))
    (kf (joins d1 hall court)) (kf (joins d2 hall court)) (kf (joins e1 court garden))
    (kf (joins e2 court garden))
    ; All else is false.
    (lcw (joins _ hall _)) (lcw (joins _ court _)) (lcw (joins _ garden _)) (kf (not (at court)))
    (kf (not (at garden)))
    (kx (open d1) (open d2))
    (kx (open e1) (open e2)))
  (goal (k (at garden))))
