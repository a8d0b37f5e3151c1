(define (domain logistics-uncertain)
  (:requirements :strips :typing)
  (:types truck package - movable movable location - object)
  (:predicates (at ?m - movable ?l - location) (in ?p - package ?t - truck) (road ?a ?b - location))
  (:action drive
    :parameters (?t - truck ?from ?to - location)
    :precondition (and (at ?t ?from) (road ?from ?to))
    :effect (and (not (at ?t ?from)) (at ?t ?to)))
  (:action load
    :parameters (?p - package ?t - truck ?l - location)
    :precondition (and (at ?t ?l) (at ?p ?l))
    :effect (and (not (at ?p ?l)) (in ?p ?t)))
  (:action unload
    :parameters (?p - package ?t - truck ?l - location)
    :precondition (and (at ?t ?l) (in ?p ?t))
    :effect (and (not (in ?p ?t)) (at ?p ?l)))
  (:action look-for
    :parameters (?p - package ?t - truck ?l - location)
    :precondition (at ?t ?l)
    :observe (at ?p ?l)))
