(define (domain ebtcs)
  (:requirements :strips :typing)
  (:types bomb toilet)
  (:predicates (in ?b - bomb) (clogged ?t - toilet) (defused))
  (:action dunk
    :parameters (?b - bomb ?t - toilet)
    :precondition (and (not (clogged ?t)))
    :effect (and (when (in ?b) (defused)) (clogged ?t)))
  (:action sense-package
    :parameters (?b - bomb)
    :precondition (and)
    :observe (in ?b)))
