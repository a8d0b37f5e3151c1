; A step that goes astray: one of two effects.
(define (domain slippery)
  (:requirements :typing :non-deterministic)
  (:types cell)
  (:predicates (at ?c - cell) (next ?c ?d - cell) (slipped))
  (:action step
    :parameters (?c ?d - cell)
    :precondition (and (at ?c) (next ?c ?d))
    :effect (oneof (and (not (at ?c)) (at ?d)) (slipped)))
  (:action look :parameters (?c - cell) :precondition () :observe (at ?c)))

(define (problem slippery-2)
  (:domain slippery)
  (:objects a b - cell)
  (:init (and (at a) (next a b)))
  (:goal (at b)))
; says: an effect can't turn out by chance
; says: a fact that is `unknown` in `:init`
