; Several observations of one action, as a list; the effect is conditional.
(define (domain chemistry)
  (:requirements :strips :conditional-effects)
  (:predicates (acid) (paper-red) (paper-wet) (labelled-acid) (labelled-water))
  (:action dip
    :parameters ()
    :precondition (and (not (paper-red)) (not (paper-wet)))
    :effect (and (paper-wet) (when (acid) (paper-red))))
  (:action look
    :parameters ()
    :precondition (paper-wet)
    :observe ((paper-red) (paper-wet)))
  (:action label-acid
    :parameters ()
    :precondition (acid)
    :effect (labelled-acid))
  (:action label-water
    :parameters ()
    :precondition (not (acid))
    :effect (labelled-water)))

(define (problem chemistry-1)
  (:domain chemistry)
  (:init (unknown (acid)))
  (:goal (or (labelled-acid) (labelled-water))))
; plans: 5
