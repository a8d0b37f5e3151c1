; Rooms in a row with doors between them, of which some are open. An open door is found by looking.
(define (domain doors)
  (:requirements :strips :typing :negative-preconditions)
  (:types room door)
  (:predicates
    (at ?r - room)
    (joins ?d - door ?from ?to - room)
    (open ?d - door))

  (:action look
    :parameters (?d - door ?from ?to - room)
    :precondition (and (at ?from) (joins ?d ?from ?to))
    :observe (open ?d))

  (:action walk
    :parameters (?from ?to - room ?d - door)
    :precondition (and (at ?from) (joins ?d ?from ?to) (open ?d) (not (= ?from ?to)))
    :effect (and (not (at ?from)) (at ?to))))
