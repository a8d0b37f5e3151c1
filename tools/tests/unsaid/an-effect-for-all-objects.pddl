; says: an action has at most 16 effects, and here are 17
; says: Take fewer objects
(define (domain d)
  (:requirements :strips :typing :negative-preconditions)
  (:types thing)
  (:predicates (p ?x - thing) (q ?x - thing) (r))
  (:action act
    :parameters (?x - thing)
    :precondition (p ?x)
    :effect (forall (?y - thing) (q ?y))))
(define (problem e)
  (:domain d)
  (:objects a b c d e f g h i j k l m n o p q - thing)
  (:init (p a))
  (:goal (r)))
