(define (domain butler)
  (:requirements :typing :preferences :constraints)
  (:types drink guest)
  (:predicates (likes ?g - guest ?d - drink) (served ?g - guest) (served-with ?g - guest ?d - drink))
  (:action ask
    :parameters (?g - guest ?d - drink)
    :observe (likes ?g ?d))
  (:action serve
    :parameters (?g - guest ?d - drink)
    :precondition (not (served ?g))
    :effect (and (served ?g) (served-with ?g ?d))))
