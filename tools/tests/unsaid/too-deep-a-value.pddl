; says: values stand within each other more than two deep
; says: Assign the inner one
(define (domain d)
  (:requirements :strips :typing :negative-preconditions)
  (:types thing)
  (:predicates (p ?x - thing) (q ?x - thing) (r))
  (:functions (f ?x - thing) - thing)
  (:action act
    :parameters (?x - thing)
    :precondition (p (f (f (f ?x))))
    :effect (r)))
(define (problem e)
  (:domain d)
  (:objects a b - thing)
  (:init (p a))
  (:goal (r)))
