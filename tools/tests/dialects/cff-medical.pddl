; One of three illnesses; a stain tells, the wrong medicine kills.
(define (domain medicate)
  (:requirements :strips :typing :conditional-effects)
  (:types illness color)
  (:constants white blue red yellow - color)
  (:predicates (ill ?i - illness) (stain ?c - color) (stained) (dead) (cures ?i - illness ?c - color))
  (:action stain-sample
    :parameters ()
    :precondition (not (stained))
    :effect (and (stained)
                 (forall (?i - illness ?c - color) (when (and (ill ?i) (cures ?i ?c)) (stain ?c)))))
  (:action inspect
    :parameters (?c - color)
    :precondition (stained)
    :observe (stain ?c))
  (:action medicate
    :parameters (?i - illness)
    :precondition (and)
    :effect (and (when (ill ?i) (not (ill ?i))) (when (not (ill ?i)) (dead)))))

(define (problem medicate-3)
  (:domain medicate)
  (:objects i1 i2 i3 - illness)
  (:init (and (cures i1 blue) (cures i2 red) (cures i3 yellow)
              (oneof (ill i1) (ill i2) (ill i3))
              (unknown (ill i1)) (unknown (ill i2)) (unknown (ill i3))))
  (:goal (and (not (dead)) (not (ill i1)) (not (ill i2)) (not (ill i3)))))
; plans: 6
