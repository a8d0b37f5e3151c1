(define (domain alternatives)
  (:requirements :strips :typing :negative-preconditions)
  (:types thing)
  (:predicates (p ?x - thing) (q ?x - thing) (r))
  (:action act
    :parameters (?x - thing)
    :precondition (and (p ?x) (or (q ?x) (not (r))))
    :effect (r)))
(define (problem alternatives-1)
  (:domain alternatives)
  (:objects a b - thing)
  (:init (p a))
  (:goal (r)))

; writes: Its precondition in PDDL has an `or`: this is 1 of 2 actions, one for each way.
; writes: (action act-1 (params (?x thing))
; writes: (pre (k (p ?x)) (k (q ?x)))
; writes: (action act-2 (params (?x thing))
; writes: (pre (k (p ?x)) (k (not (r))))
; plans: 1
