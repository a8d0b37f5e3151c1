; A predicate of things of two types: its argument is of the narrowest type that has both.
(define (domain d)
  (:requirements :strips :typing)
  (:types moving place - object car person - moving stone)
  (:predicates (at ?x - (either car person) ?y - place) (heavy ?x - (either stone car)) (lifted ?x - car))
  (:action lift
    :parameters (?x - car ?y - place)
    :precondition (and (at ?x ?y) (not (heavy ?x)))
    :effect (lifted ?x)))
(define (problem e)
  (:domain d)
  (:objects c - car p - person s - stone h - place)
  (:init (at c h) (heavy s))
  (:goal (lifted c)))
; writes: (predicates (at moving place) (heavy object) (lifted car))
; plans: 1
