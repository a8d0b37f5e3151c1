; The same tiger, without numbers: it is left or right.
(define (domain tiger)
  (:requirements :strips)
  (:predicates (tiger-left) (tiger-right) (free))
  (:action listen :parameters () :precondition () :observe (tiger-left))
  (:action open-left :parameters () :precondition (and (tiger-right)) :effect (and (free)))
  (:action open-right :parameters () :precondition (and (tiger-left)) :effect (and (free))))

(define (problem tiger-2)
  (:domain tiger)
  (:init (and (oneof (tiger-left) (tiger-right))))
  (:goal (and (free))))
; plans: 3
