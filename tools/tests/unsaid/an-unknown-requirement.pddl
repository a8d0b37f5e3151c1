; says: the requirement `:timed-effects` isn't known here
; says: Take it out
(define (domain d)
  (:requirements :strips :typing :negative-preconditions :timed-effects)
  (:types thing)
  (:predicates (p ?x - thing) (q ?x - thing) (r))
  (:action act
    :parameters (?x - thing)
    :precondition (p ?x)
    :effect (r)))
(define (problem e)
  (:domain d)
  (:objects a b - thing)
  (:init (p a))
  (:goal (r)))
