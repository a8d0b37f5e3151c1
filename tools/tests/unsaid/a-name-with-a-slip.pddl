; says: the predicate `loadde` isn't declared
; says: Is `loaded` meant? Else add it to `:predicates`.
(define (domain d)
  (:requirements :strips :typing)
  (:types crate)
  (:predicates (loaded ?c - crate) (sent ?c - crate))
  (:action send
    :parameters (?c - crate)
    :precondition (loadde ?c)
    :effect (sent ?c)))
(define (problem e)
  (:domain d)
  (:objects one - crate)
  (:init (loaded one))
  (:goal (sent one)))
