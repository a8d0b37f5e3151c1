; says: two-observations.pddl:12:25: `:observe` has one list behind it, and this is a second one
; says: Write `(and (toxic ?s) (clean c1))`, which observes whether both are true, or `((toxic ?s) (clean c1))`
(define (domain d)
  (:requirements :strips :typing :contingent)
  (:types sample cup)
  (:constants c1 - cup)
  (:predicates (toxic ?s - sample) (clean ?c - cup) (done))
  (:action act
    :parameters (?s - sample)
    :precondition (clean c1))
  (:action test :parameters (?s - sample)
    :observe (toxic ?s) (clean c1)
    :effect (done)))
(define (problem e)
  (:domain d)
  (:objects s1 - sample)
  (:init (clean c1))
  (:goal (done)))
