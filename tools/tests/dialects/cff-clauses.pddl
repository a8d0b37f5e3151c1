; At least one of two switches works, in the dialect's way: by or.
(define (domain switches)
  (:requirements :strips)
  (:predicates (works-1) (works-2) (lit))
  (:action test-1 :parameters () :precondition () :observe (works-1))
  (:action press-1 :parameters () :precondition (works-1) :effect (lit))
  (:action press-2 :parameters () :precondition (works-2) :effect (lit)))

(define (problem switches-1)
  (:domain switches)
  (:init (and (unknown (works-1)) (unknown (works-2)) (or (works-1) (works-2))))
  (:goal (lit)))
; plans: 3
