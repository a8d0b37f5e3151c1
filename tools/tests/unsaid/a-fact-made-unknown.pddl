; says: an effect can't make a fact unknown
; says: Set it under a condition
(define (domain d)
  (:requirements :strips :typing :negative-preconditions)
  (:types thing)
  (:predicates (p ?x - thing) (q ?x - thing) (r))
  (:action act
    :parameters (?x - thing)
    :precondition (p ?x)
    :effect (and (r) (unknown (q ?x)))))
(define (problem e)
  (:domain d)
  (:objects a b - thing)
  (:init (p a))
  (:goal (r)))
