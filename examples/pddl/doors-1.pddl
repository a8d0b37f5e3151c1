; Two doors lead to the garden, and one of them is open.
; ./pks plan 3
(define (problem doors-1)
  (:domain doors)
  (:objects hall garden - room left right - door)
  (:init
    (at hall)
    (joins left hall garden)
    (joins right hall garden)
    (oneof (open left) (open right)))
  (:goal (at garden)))
