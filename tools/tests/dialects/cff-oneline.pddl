; A safe with two combinations, one of which opens it; trying tells.
(define (domain safe)
(:requirements :strips :typing :conditional-effects)
(:types combo)
(:predicates (right ?c - combo) (open) (tried ?c - combo))
(:action dial :parameters (?c - combo)
 :precondition (not (open))
 :effect (and (tried ?c) (when (right ?c) (open))))
(:action look :parameters () :precondition () :observe (open)))
(define (problem safe-2) (:domain safe) (:objects c1 c2 - combo)
(:init (and (unknown (right c1)) (unknown (right c2)) (oneof (right c1) (right c2))))
(:goal (open)))
; plans: 4
