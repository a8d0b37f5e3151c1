; says: constraints aren't read
; says: Write `(always ..)`
(define (domain d)
  (:requirements :strips :typing :negative-preconditions)
  (:types thing)
  (:predicates (p ?x - thing) (q ?x - thing) (r))
  (:action act
    :parameters (?x - thing)
    :precondition (p ?x)
    :effect (r)))
(define (problem e)
  (:domain d)
  (:objects a b - thing)
  (:init (p a))
  (:constraints (always (p a))) (:goal (r)))
