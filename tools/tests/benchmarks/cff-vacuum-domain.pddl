(define (domain vacuum)
  (:requirements :strips :typing :negative-preconditions)
  (:types room)
  (:predicates (in ?r - room) (door ?a ?b - room) (dirty ?r - room))
  (:action move
    :parameters (?a ?b - room)
    :precondition (and (in ?a) (door ?a ?b))
    :effect (and (not (in ?a)) (in ?b)))
  (:action suck
    :parameters (?r - room)
    :precondition (and (in ?r) (dirty ?r))
    :effect (not (dirty ?r)))
  (:action look
    :parameters (?r - room)
    :precondition (in ?r)
    :observe (dirty ?r)))
