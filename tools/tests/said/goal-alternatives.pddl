; A goal with alternatives: an action for each way ends the plan.
(define (domain d)
  (:requirements :strips :typing :disjunctive-preconditions)
  (:types place)
  (:predicates (at ?x - place) (way ?x ?y - place) (finished))
  (:action go
    :parameters (?x ?y - place)
    :precondition (and (at ?x) (way ?x ?y))
    :effect (and (not (at ?x)) (at ?y))))
(define (problem e)
  (:domain d)
  (:objects a b c - place)
  (:init (at a) (way a b) (way b c))
  (:goal (and (not (finished)) (or (at b) (at c)))))
; writes: (action finish-1
; writes: (pre (k (not (finished))) (k (at b)))
; writes: (action finish-2
; writes: (goal (k (finished-2))))
; plans: 2
; plans not: 1
