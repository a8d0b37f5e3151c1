; Two tests tell which of three illnesses it is, in the dialect of belief-space planners.
(define (domain medical)
  (:requirements :strips :typing :equality)
  (:types illness)
  (:predicates (ill ?i - illness) (high) (cured))
  (:action count-leukocytes
    :parameters ()
    :precondition ()
    :observation (high))
  (:action examine
    :parameters (?i - illness)
    :precondition ()
    :observation (ill ?i))
  (:action treat
    :parameters (?i - illness)
    :precondition (ill ?i)
    :effect (and (not (ill ?i)) (cured))))

(define (problem medical-3)
  (:domain medical)
  (:objects flu pox gout - illness)
  (:init (and (oneof (ill flu) (ill pox) (ill gout))
              (unknown (high))
              (or (not (high)) (ill flu))
              (or (high) (not (ill flu)))))
  (:goal (cured)))
; plans: 5
