; A package in one of two cities, loaded where it is found; types have a parent.
(define (domain logistics)
  (:requirements :strips :typing)
  (:types vehicle package - physobj airport - place physobj place - object)
  (:predicates (at ?x - physobj ?l - place) (in ?p - package ?v - vehicle))
  (:action fly
    :parameters (?v - vehicle ?from ?to - airport)
    :precondition (and (at ?v ?from) (not (= ?from ?to)))
    :effect (and (not (at ?v ?from)) (at ?v ?to)))
  (:action observe-package
    :parameters (?p - package ?v - vehicle ?l - place)
    :precondition (at ?v ?l)
    :observation (at ?p ?l))
  (:action load
    :parameters (?p - package ?v - vehicle ?l - place)
    :precondition (and (at ?v ?l) (at ?p ?l))
    :effect (and (not (at ?p ?l)) (in ?p ?v)))
  (:action unload
    :parameters (?p - package ?v - vehicle ?l - place)
    :precondition (and (at ?v ?l) (in ?p ?v))
    :effect (and (at ?p ?l) (not (in ?p ?v)))))

(define (problem logistics-1)
  (:domain logistics)
  (:objects plane - vehicle box - package rome oslo - airport)
  (:init (and (at plane rome) (oneof (at box rome) (at box oslo))))
  (:goal (at box rome)))
; plans: 6
