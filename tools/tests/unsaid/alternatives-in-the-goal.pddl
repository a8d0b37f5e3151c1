; says: a goal may be met in at most 8 ways, and here are 16
; says: Add an action for each
(define (domain d)
  (:requirements :strips :typing :negative-preconditions)
  (:types thing)
  (:predicates (p ?x - thing) (q ?x - thing) (r))
  (:action act
    :parameters (?x - thing)
    :precondition (p ?x)
    :effect (r)))
(define (problem e)
  (:domain d)
  (:objects a b c d - thing)
  (:init (p a))
  (:goal (forall (?x - thing) (or (p ?x) (q ?x)))))
