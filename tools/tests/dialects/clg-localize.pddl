; A robot in a corridor of three cells doesn't know in which it is, and feels the walls.
(define (domain localize)
  (:requirements :typing :conditional-effects)
  (:types pos)
  (:predicates (at ?p - pos) (right-of ?p ?q - pos) (done))
  (:action feel-right
    :parameters ()
    :precondition (and)
    :observe (at p3))
  (:action move-right
    :parameters ()
    :precondition (not (at p3))
    :effect (and (when (at p1) (and (not (at p1)) (at p2)))
                 (when (at p2) (and (not (at p2)) (at p3)))))
  (:action stop
    :parameters ()
    :precondition (at p3)
    :effect (done))
  (:constants p1 p2 p3 - pos))

(define (problem localize-3)
  (:domain localize)
  (:init (oneof (at p1) (at p2) (at p3)))
  (:goal (done)))
; plans: 7
