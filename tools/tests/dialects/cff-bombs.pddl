; Two bombs, one toilet: each package may hold a bomb, and a metal detector tells.
(define (domain btcs)
  (:requirements :strips :typing :conditional-effects)
  (:types bomb toilet)
  (:predicates (armed ?b - bomb) (clogged ?t - toilet))
  (:action dunk
    :parameters (?b - bomb ?t - toilet)
    :precondition (and (not (clogged ?t)))
    :effect (and (clogged ?t) (when (armed ?b) (not (armed ?b)))))
  (:action flush
    :parameters (?t - toilet)
    :effect (not (clogged ?t)))
  (:action detect
    :parameters (?b - bomb)
    :observe (armed ?b)))

(define (problem btcs-2-1)
  (:domain btcs)
  (:objects b1 b2 - bomb t1 - toilet)
  (:init (and (unknown (armed b1)) (unknown (armed b2)) (oneof (armed b1) (armed b2))))
  (:goal (and (not (armed b1)) (not (armed b2)))))
; plans: 3
