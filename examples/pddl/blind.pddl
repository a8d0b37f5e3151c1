; A bomb is in one of several packages, and nothing tells in which: all are dunked.
(define (domain bomb-unseen)
  (:requirements :strips :typing :negative-preconditions :conditional-effects)
  (:types package)
  (:predicates (in ?p - package) (defused) (clogged))

  (:action dunk
    :parameters (?p - package)
    :precondition (not (clogged))
    :effect (and (when (in ?p) (defused)) (clogged)))

  (:action flush
    :effect (not (clogged))))
