(define (domain rescue)
  (:requirements :adl :typing)
  (:types site - object
          agent victim - object
          drone robot - agent)
  (:predicates (is-at ?x - (either agent victim) ?s - site) (reachable ?s - site) (saved ?v - victim))
  (:action travel
    :parameters (?a - agent ?from ?to - site)
    :precondition (and (is-at ?a ?from) (not (= ?from ?to)) (reachable ?to))
    :effect (and (is-at ?a ?to) (not (is-at ?a ?from))))
  (:action scout
    :parameters (?d - drone ?v - victim ?s - site)
    :precondition (is-at ?d ?s)
    :observe (is-at ?v ?s))
  (:action rescue
    :parameters (?v - victim ?s - site)
    :precondition (and (is-at ?v ?s) (exists (?r - robot) (is-at ?r ?s)))
    :effect (and (saved ?v) (not (is-at ?v ?s)))))
