; says: an action has at most 4 parameters, and here are 5
; says: split it into two actions
(define (domain d)
  (:requirements :strips :typing :negative-preconditions)
  (:types thing)
  (:predicates (p ?x - thing) (q ?x - thing) (r))
  (:action act
    :parameters (?x ?y ?z ?v ?w - thing)
    :precondition (p ?x)
    :effect (r)))
(define (problem e)
  (:domain d)
  (:objects a b c d e f g h i - thing)
  (:init (p a))
  (:goal (r)))
