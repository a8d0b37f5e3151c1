; says: `(either thing place)` is no type here
; says: Give the types a parent
(define (domain d)
  (:requirements :strips :typing :negative-preconditions)
  (:types thing place)
  (:predicates (p ?x - thing) (q ?x - thing) (r))
  (:action act
    :parameters (?x - (either thing place))
    :precondition (p ?x)
    :effect (r)))
(define (problem e)
  (:domain d)
  (:objects a b - thing)
  (:init (p a))
  (:goal (r)))
