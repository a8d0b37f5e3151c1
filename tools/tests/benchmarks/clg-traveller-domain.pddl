(define (domain canadian-traveller)
  (:requirements :typing :action-costs :negative-preconditions)
  (:types place)
  (:predicates (at ?x - place) (road ?x ?y - place) (passable ?x ?y - place))
  (:functions (total-cost) - number (length ?x ?y - place) - number)
  (:action go
    :parameters (?x ?y - place)
    :precondition (and (at ?x) (road ?x ?y) (passable ?x ?y))
    :effect (and (not (at ?x)) (at ?y) (increase (total-cost) (length ?x ?y))))
  (:action look-down-the-road
    :parameters (?x ?y - place)
    :precondition (and (at ?x) (road ?x ?y))
    :observe (passable ?x ?y)))
