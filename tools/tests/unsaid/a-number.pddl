; says: `fuel` is a number, and there are no numbers but costs
; says: Use objects for the amounts
(define (domain d)
  (:requirements :strips :typing :negative-preconditions)
  (:types thing)
  (:predicates (p ?x - thing) (q ?x - thing) (r))
  (:functions (fuel ?x - thing) - number)
  (:action act
    :parameters (?x - thing)
    :precondition (p ?x)
    :effect (r)))
(define (problem e)
  (:domain d)
  (:objects a b - thing)
  (:init (p a))
  (:goal (r)))
