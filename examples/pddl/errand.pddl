; A robot fetches a thing. Where things are is a value, which somebody can be asked for.
(define (domain errand)
  (:requirements :strips :typing :object-fluents)
  (:types room thing)
  (:predicates
    (held ?x - thing)
    (locked ?r - room))
  (:functions
    (here) - room
    (place ?x - thing) - room)

  ; From then on the robot knows the room, whichever it is.
  (:action ask
    :parameters (?x - thing)
    :effect (knows-value (place ?x)))

  (:action go
    :parameters (?to - room)
    :precondition (not (locked ?to))
    :effect (assign (here) ?to))

  (:action pick
    :parameters (?x - thing)
    :precondition (= (here) (place ?x))
    :effect (held ?x))

  ; The door tells by a lamp.
  (:action look-at-lamp
    :parameters (?r - room)
    :observe (locked ?r))

  (:action unlock
    :parameters (?r - room)
    :precondition (locked ?r)
    :effect (not (locked ?r))))
