(define (domain safe)
  (:requirements :strips :typing :conditional-effects)
  (:types code)
  (:predicates (right ?c - code) (open) (rich))
  (:action dial
    :parameters (?c - code)
    :precondition (and (not (rich)))
    :effect (and (when (right ?c) (open))))
  (:action feel-handle
    :parameters ()
    :precondition ()
    :observe (open))
  (:action take-money
    :parameters ()
    :precondition (open)
    :effect (rich)))
