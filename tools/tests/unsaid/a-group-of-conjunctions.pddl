; says: `(and (p a) (q a))` can't be a member here
; says: Give it a predicate of its own
(define (domain d)
  (:requirements :strips :typing :negative-preconditions)
  (:types thing)
  (:predicates (p ?x - thing) (q ?x - thing) (r))
  (:action act
    :parameters (?x - thing)
    :precondition (p ?x)
    :effect (r)))
(define (problem e)
  (:domain d)
  (:objects a b - thing)
  (:init (oneof (and (p a) (q a)) (and (p b) (q b))))
  (:goal (r)))
