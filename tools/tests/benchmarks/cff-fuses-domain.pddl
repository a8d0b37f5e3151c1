(define (domain fuses)
  (:requirements :adl)
  (:types fuse)
  (:predicates (blown ?f - fuse) (spare) (lit))
  (:action test
    :parameters (?f - fuse)
    :observe (blown ?f))
  (:action replace
    :parameters (?f - fuse)
    :precondition (spare)
    :effect (and (not (spare)) (not (blown ?f))))
  (:action switch-on
    :precondition (forall (?f - fuse) (not (blown ?f)))
    :effect (lit)))
