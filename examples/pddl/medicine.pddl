; A patient has one of several illnesses. Staining a sample and looking at its colour tells which;
; the wrong medicine kills.
(define (domain medicine)
  (:requirements :strips :typing :negative-preconditions :conditional-effects)
  (:types illness colour)
  (:constants white - colour)
  (:predicates
    (ill ?i - illness)
    (tells ?i - illness ?c - colour)    ; the illness gives the stain this colour
    (stained)
    (stain ?c - colour)
    (dead))

  (:action make-stain
    :precondition (not (stained))
    :effect (and (stained)
                 (forall (?i - illness ?c - colour)
                   (when (and (ill ?i) (tells ?i ?c)) (stain ?c)))))

  (:action look
    :parameters (?c - colour)
    :precondition (stained)
    :observe (stain ?c))

  ; It cures the illness for which it is made.
  (:action medicate
    :parameters (?i - illness)
    :effect (and (when (ill ?i) (not (ill ?i)))
                 (when (not (ill ?i)) (dead)))))
