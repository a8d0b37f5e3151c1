;; one illness out of several, told apart by a stain and a look at each colour
(define (domain medpks)
  (:requirements :adl)
  (:types illness)
  (:constants i0 - illness)
  (:predicates (ill ?i - illness) (stained) (dead))
  (:action medicate
    :parameters (?i - illness)
    :precondition (and (not (= ?i i0)) (ill ?i) (not (dead)))
    :effect (and (not (ill ?i)) (ill i0)))
  (:action stain
    :parameters ()
    :precondition (not (dead))
    :effect (stained))
  (:action inspect
    :parameters (?i - illness)
    :precondition (and (stained) (not (= ?i i0)))
    :observe (ill ?i)))
