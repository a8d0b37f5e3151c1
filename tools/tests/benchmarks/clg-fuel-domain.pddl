(define (domain fuel-search)
  (:requirements :typing :fluents)
  (:types place)
  (:predicates (at ?p - place) (road ?a ?b - place) (goods-at ?p - place) (done))
  (:functions (fuel))
  (:action drive
    :parameters (?a ?b - place)
    :precondition (and (at ?a) (road ?a ?b) (>= (fuel) 2))
    :effect (and (not (at ?a)) (at ?b) (decrease (fuel) 2)))
  (:action look
    :parameters (?p - place)
    :precondition (at ?p)
    :observe (goods-at ?p))
  (:action fetch
    :parameters (?p - place)
    :precondition (and (at ?p) (goods-at ?p))
    :effect (done)))
