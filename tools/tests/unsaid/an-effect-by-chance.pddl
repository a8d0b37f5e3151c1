; says: an effect can't turn out by chance, as `oneof` says
; says: Put what it hangs on into a fact
(define (domain d)
  (:requirements :strips :typing :negative-preconditions)
  (:types thing)
  (:predicates (p ?x - thing) (q ?x - thing) (r))
  (:action act
    :parameters (?x - thing)
    :precondition (p ?x)
    :effect (oneof (r) (not (p ?x)))))
(define (problem e)
  (:domain d)
  (:objects a b - thing)
  (:init (p a))
  (:goal (r)))
