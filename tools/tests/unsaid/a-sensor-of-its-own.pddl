; says: sensors that tell by themselves can't be said
; says: Write an `:action` with `:observe`
(define (domain d)
  (:requirements :strips :typing :negative-preconditions)
  (:types thing)
  (:predicates (p ?x - thing) (q ?x - thing) (r))
  (:sensor see :parameters (?x - thing) :condition (r) :sensed (p ?x))
  (:action act
    :parameters (?x - thing)
    :precondition (p ?x)
    :effect (r)))
(define (problem e)
  (:domain d)
  (:objects a b - thing)
  (:init (p a))
  (:goal (r)))
