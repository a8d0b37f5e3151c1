; says: preferences can't be said
; says: Ask for what is preferred, or take it out.
(define (domain d)
  (:requirements :strips :typing :preferences)
  (:types thing)
  (:predicates (p ?x - thing) (q ?x - thing) (r))
  (:action act
    :parameters (?x - thing)
    :precondition (p ?x)
    :effect (r)))
(define (problem e)
  (:domain d)
  (:objects a b - thing)
  (:init (p a))
  (:goal (and (r) (preference nice (q a)))))
