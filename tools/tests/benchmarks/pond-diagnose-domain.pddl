(define (domain diagnose)
  (:requirements :strips :typing :action-costs)
  (:types part)
  (:constants pump belt valve - part)
  (:predicates (broken ?p - part) (cheap ?p - part) (dear ?p - part) (runs))
  (:functions (total-cost) - number)
  (:action measure
    :parameters (?p - part)
    :precondition ()
    :effect (increase (total-cost) 1)
    :observe (broken ?p))
  (:action swap-cheap
    :parameters (?p - part)
    :precondition (cheap ?p)
    :effect (and (not (broken ?p)) (increase (total-cost) 2)))
  (:action swap-dear
    :parameters (?p - part)
    :precondition (dear ?p)
    :effect (and (not (broken ?p)) (increase (total-cost) 20)))
  (:action start
    :parameters ()
    :precondition (and (not (broken pump)) (not (broken belt)) (not (broken valve)))
    :effect (and (runs) (increase (total-cost) 1))))
