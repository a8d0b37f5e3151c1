; A belief with numbers.
(define (domain tiger)
  (:requirements :strips :probabilistic-effects)
  (:predicates (tiger-left) (tiger-right) (free))
  (:action listen :parameters () :precondition () :observe (tiger-left))
  (:action open-left :parameters () :precondition (tiger-right) :effect (free))
  (:action open-right :parameters () :precondition (tiger-left) :effect (free)))

(define (problem tiger-1)
  (:domain tiger)
  (:init (probabilistic 0.5 (tiger-left) 0.5 (tiger-right)))
  (:goal (free)))
; plans: 3
