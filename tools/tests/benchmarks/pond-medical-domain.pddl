(define (domain medical)
  (:requirements :strips :typing :conditional-effects)
  (:types ILLNESS COLOUR)
  (:constants i1 i2 i3 - ILLNESS red blue - COLOUR)
  (:predicates (ill ?i - ILLNESS) (stain ?c - COLOUR) (high-count) (cured))
  (:action do-stain
    :parameters ()
    :precondition ()
    :effect (and (when (ill i1) (stain red))
                 (when (ill i2) (stain blue))
                 (when (ill i3) (stain blue))))
  (:action count-cells
    :parameters ()
    :precondition ()
    :effect (when (ill i2) (high-count)))
  (:action look-at-stain
    :parameters (?c - COLOUR)
    :precondition ()
    :observe (stain ?c))
  (:action read-count
    :parameters ()
    :precondition ()
    :observe (high-count))
  (:action medicate
    :parameters (?i - ILLNESS)
    :precondition (ill ?i)
    :effect (and (not (ill ?i)) (cured))))
