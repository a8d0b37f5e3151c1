; The hall is swept when the robot has left it. PDDL has the plan go hall garden, sweep hall.
; ./pks plan 4
(define (problem move-1)
  (:domain move)
  (:objects hall garden - room)
  (:init (at hall))
  (:goal (swept hall)))
