; says: a fact at a later time can't be said
; says: Take it out
(define (domain d)
  (:requirements :strips :typing :negative-preconditions)
  (:types thing)
  (:predicates (p ?x - thing) (q ?x - thing) (r))
  (:action act
    :parameters (?x - thing)
    :precondition (p ?x)
    :effect (r)))
(define (problem e)
  (:domain d)
  (:objects a b - thing)
  (:init (p a) (at 5 (r)))
  (:goal (r)))
