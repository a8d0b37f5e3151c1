; A bomb is in one of several packages; a sensor tells whether it ticks in a package.
(define (domain bomb-in-the-toilet)
  (:requirements :strips :typing :negative-preconditions :conditional-effects)
  (:types package toilet)
  (:predicates
    (in ?p - package)         ; the bomb is in it
    (defused)
    (clogged ?t - toilet))

  ; Listens at a package.
  (:action listen
    :parameters (?p - package)
    :observe (in ?p))

  ; Puts a package into a toilet; that defuses what is in it, and clogs the toilet.
  (:action dunk
    :parameters (?p - package ?t - toilet)
    :precondition (not (clogged ?t))
    :effect (and (when (in ?p) (defused)) (clogged ?t)))

  (:action flush
    :parameters (?t - toilet)
    :precondition (clogged ?t)
    :effect (not (clogged ?t))))
