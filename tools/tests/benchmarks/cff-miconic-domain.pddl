(define (domain miconic-sensing)
  (:requirements :adl :typing)
  (:types passenger floor)
  (:predicates (origin ?p - passenger ?f - floor) (destin ?p - passenger ?f - floor)
               (boarded ?p - passenger) (served ?p - passenger) (lift-at ?f - floor))
  (:action stop
    :parameters (?f - floor)
    :precondition (lift-at ?f)
    :effect (and
      (forall (?p - passenger)
        (when (and (boarded ?p) (destin ?p ?f)) (and (not (boarded ?p)) (served ?p))))
      (forall (?p - passenger)
        (when (and (origin ?p ?f) (not (served ?p))) (boarded ?p)))))
  (:action move
    :parameters (?f1 ?f2 - floor)
    :precondition (and (lift-at ?f1) (not (= ?f1 ?f2)))
    :effect (and (lift-at ?f2) (not (lift-at ?f1))))
  (:action peep
    :parameters (?p - passenger ?f - floor)
    :precondition (lift-at ?f)
    :observe (origin ?p ?f)))
