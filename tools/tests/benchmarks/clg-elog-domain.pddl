(define (domain elogistics)
  (:requirements :strips :typing)
  (:types location city thing - object
          airport - location
          package vehicle - thing
          truck airplane - vehicle)
  (:predicates (in-city ?l - location ?c - city)
               (at ?o - thing ?l - location)
               (in ?p - package ?v - vehicle))
  (:action load
    :parameters (?p - package ?v - vehicle ?l - location)
    :precondition (and (at ?v ?l) (at ?p ?l))
    :effect (and (in ?p ?v) (not (at ?p ?l))))
  (:action unload
    :parameters (?p - package ?v - vehicle ?l - location)
    :precondition (and (at ?v ?l) (in ?p ?v))
    :effect (and (at ?p ?l) (not (in ?p ?v))))
  (:action drive-truck
    :parameters (?t - truck ?from ?to - location ?c - city)
    :precondition (and (at ?t ?from) (in-city ?from ?c) (in-city ?to ?c) (not (= ?from ?to)))
    :effect (and (at ?t ?to) (not (at ?t ?from))))
  (:action fly
    :parameters (?a - airplane ?from ?to - airport)
    :precondition (and (at ?a ?from) (not (= ?from ?to)))
    :effect (and (at ?a ?to) (not (at ?a ?from))))
  (:action sense-at
    :parameters (?p - package ?t - truck ?l - location)
    :precondition (at ?t ?l)
    :observe (at ?p ?l)))
