; says: `?x` is of the type `thing`, and `place` is wanted
; says: Declare it as a `place`
(define (domain d)
  (:requirements :strips :typing :negative-preconditions)
  (:types thing place)
  (:predicates (p ?x - thing) (q ?x - thing) (r) (s ?y - place))
  (:action act
    :parameters (?x - thing)
    :precondition (s ?x)
    :effect (r)))
(define (problem e)
  (:domain d)
  (:objects a b - thing)
  (:init (p a))
  (:goal (r)))
