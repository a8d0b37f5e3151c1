; says: an action has at most 16 preconditions, and here are 19
; says: Keep a fact for some of them
(define (domain d)
  (:requirements :strips :typing :negative-preconditions)
  (:types thing)
  (:predicates (p ?x - thing) (q ?x - thing) (r))
  (:action act
    :parameters (?x - thing)
    :precondition (and (r) (p ?x) (forall (?y - thing) (q ?y)))
    :effect (r)))
(define (problem e)
  (:domain d)
  (:objects a b c d e f g h i j k l m n o p q - thing)
  (:init (p a))
  (:goal (r)))
