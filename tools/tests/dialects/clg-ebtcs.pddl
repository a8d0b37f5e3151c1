; Four packages, one with a bomb; dunking is tried on all, and looked at between.
(define (domain ebtcs)
  (:requirements :typing)
  (:types package)
  (:predicates (bomb-in ?p - package) (defused) (clogged))
  (:action sense-bomb
    :parameters (?p - package)
    :precondition (and)
    :observe (bomb-in ?p))
  (:action dunk
    :parameters (?p - package)
    :precondition (and (bomb-in ?p) (not (clogged)))
    :effect (and (defused) (not (bomb-in ?p)) (clogged))))

(define (problem ebtcs-4)
  (:domain ebtcs)
  (:objects p1 p2 p3 p4 - package)
  (:init (oneof (bomb-in p1) (bomb-in p2) (bomb-in p3) (bomb-in p4)))
  (:goal (defused)))
; plans: 7
