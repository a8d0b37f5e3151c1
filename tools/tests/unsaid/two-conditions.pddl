; says: `:precondition` has one list behind it, and this is a second one
; says: Write `(and (p a) (not (r)))`.
(define (domain d)
  (:requirements :strips :typing :negative-preconditions)
  (:types thing)
  (:constants a - thing)
  (:predicates (p ?x - thing) (r))
  (:action act
    :effect (r)
    :precondition (p a) (not (r))))
(define (problem e)
  (:domain d)
  (:init (p a))
  (:goal (r)))
