; says: an effect has at most 4 conditions, and here are 5
; says: Let an action before it set a fact
(define (domain d)
  (:requirements :strips :typing :negative-preconditions)
  (:types thing)
  (:predicates (p ?x - thing) (q ?x - thing) (r))
  (:action act
    :parameters (?x - thing)
    :precondition (p ?x)
    :effect (when (and (p a) (p b) (q a) (q b) (not (r))) (r))))
(define (problem e)
  (:domain d)
  (:objects a b - thing)
  (:init (p a) (unknown (p b)) (unknown (q a)) (unknown (q b)))
  (:goal (r)))
