; Where the robot and the box begin is told together: one of two conjunctions.
(define (domain pushing)
  (:requirements :typing)
  (:types pos)
  (:predicates (robot ?p - pos) (box ?p - pos) (moved))
  (:action look
    :parameters (?p - pos)
    :precondition (and)
    :observe (box ?p))
  (:action push
    :parameters (?p - pos)
    :precondition (and (robot ?p) (box ?p))
    :effect (moved)))

(define (problem pushing-2)
  (:domain pushing)
  (:objects left right - pos)
  (:init (oneof (and (robot left) (box left)) (and (robot right) (box right))))
  (:goal (moved)))
; says: can't be a member here
; says: Give it a predicate of its own, and name that
