; A package is in one of two places; a truck may look where it stands.
(define (domain elogistics)
  (:requirements :strips :typing)
  (:types truck location package)
  (:predicates (at ?t - truck ?l - location) (obj-at ?p - package ?l - location)
               (in ?p - package ?t - truck))
  (:action drive
    :parameters (?t - truck ?from ?to - location)
    :precondition (and (at ?t ?from) (not (= ?from ?to)))
    :effect (and (not (at ?t ?from)) (at ?t ?to)))
  (:action load
    :parameters (?p - package ?t - truck ?l - location)
    :precondition (and (at ?t ?l) (obj-at ?p ?l))
    :effect (and (in ?p ?t) (not (obj-at ?p ?l))))
  (:action unload
    :parameters (?p - package ?t - truck ?l - location)
    :precondition (and (at ?t ?l) (in ?p ?t))
    :effect (and (obj-at ?p ?l) (not (in ?p ?t))))
  (:action look
    :parameters (?p - package ?t - truck ?l - location)
    :precondition (at ?t ?l)
    :observe (obj-at ?p ?l)))

(define (problem elogistics-1)
  (:domain elogistics)
  (:objects t1 - truck depot shop mall - location p1 - package)
  (:init (and (at t1 depot)
              (unknown (obj-at p1 shop)) (unknown (obj-at p1 mall))
              (oneof (obj-at p1 shop) (obj-at p1 mall))))
  (:goal (and (obj-at p1 depot))))
; plans: 7
