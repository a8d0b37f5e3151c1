; Rooms in a ring with windows: each is shut and locked; whether it is shut, one sees there.
(define (domain ring)
  (:requirements :typing)
  (:types room)
  (:predicates (next ?r ?s - room) (at ?r - room) (closed ?r - room) (locked ?r - room))
  (:action forward
    :parameters (?r ?s - room)
    :precondition (and (at ?r) (next ?r ?s))
    :effect (and (not (at ?r)) (at ?s)))
  (:action look
    :parameters (?r - room)
    :precondition (at ?r)
    :observe (closed ?r))
  (:action close
    :parameters (?r - room)
    :precondition (and (at ?r) (not (closed ?r)))
    :effect (closed ?r))
  (:action lock
    :parameters (?r - room)
    :precondition (and (at ?r) (closed ?r))
    :effect (locked ?r)))

(define (problem ring-2)
  (:domain ring)
  (:objects r1 r2 - room)
  (:init (and (at r1) (next r1 r2) (next r2 r1) (unknown (closed r1)) (unknown (closed r2))
              (unknown (locked r1)) (unknown (locked r2))))
  (:goal (and (locked r1) (locked r2))))
; plans: 9
