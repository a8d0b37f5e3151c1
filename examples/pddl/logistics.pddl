; Packages are brought to their goals by a truck within a city and by a plane between airports.
; Where a package is must be found out.
(define (domain logistics)
  (:requirements :strips :typing :negative-preconditions :action-costs)
  (:types
    airport - place
    truck plane - vehicle
    place vehicle package - object)
  (:predicates
    (at ?v - vehicle ?x - place)
    (lies ?p - package ?x - place)
    (in ?p - package ?v - vehicle))
  (:functions (total-cost) - number)

  ; Who is at a place with a vehicle sees whether a package lies there.
  (:action look
    :parameters (?p - package ?v - vehicle ?x - place)
    :precondition (at ?v ?x)
    :effect (increase (total-cost) 1)
    :observe (lies ?p ?x))

  (:action load
    :parameters (?p - package ?v - vehicle ?x - place)
    :precondition (and (at ?v ?x) (lies ?p ?x))
    :effect (and (not (lies ?p ?x)) (in ?p ?v) (increase (total-cost) 1)))

  (:action unload
    :parameters (?p - package ?v - vehicle ?x - place)
    :precondition (and (at ?v ?x) (in ?p ?v))
    :effect (and (not (in ?p ?v)) (lies ?p ?x) (increase (total-cost) 1)))

  (:action drive
    :parameters (?t - truck ?from ?to - place)
    :precondition (and (at ?t ?from) (not (= ?from ?to)))
    :effect (and (not (at ?t ?from)) (at ?t ?to) (increase (total-cost) 2)))

  (:action fly
    :parameters (?p - plane ?from ?to - airport)
    :precondition (and (at ?p ?from) (not (= ?from ?to)))
    :effect (and (not (at ?p ?from)) (at ?p ?to) (increase (total-cost) 5))))
