; A robot goes from room to room; nothing says that the two differ.
(define (domain move)
  (:requirements :strips :typing :negative-preconditions)
  (:types room)
  (:predicates (at ?r - room) (swept ?r - room))

  (:action go
    :parameters (?from ?to - room)
    :precondition (at ?from)
    :effect (and (not (at ?from)) (at ?to)))

  ; Nobody may stand there.
  (:action sweep
    :parameters (?r - room)
    :precondition (not (at ?r))
    :effect (swept ?r)))
