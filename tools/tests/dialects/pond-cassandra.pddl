; Heaven is left or right of the fork, and a sign before it tells where; hell is at the other end.
(define (domain heaven-and-hell)
  (:requirements :strips :typing :conditional-effects)
  (:types place)
  (:constants entry fork sign left right - place)
  (:predicates (at ?p - place) (way ?x ?y - place) (heaven ?p - place) (sign-points-left) (happy))
  (:action go
    :parameters (?x ?y - place)
    :precondition (and (at ?x) (way ?x ?y))
    :effect (and (not (at ?x)) (at ?y)))
  (:action read-sign
    :parameters ()
    :precondition (at sign)
    :observe (sign-points-left))
  (:action enter
    :parameters (?x - place)
    :precondition (and (at ?x) (heaven ?x))
    :effect (happy)))

(define (problem heaven-and-hell-1)
  (:domain heaven-and-hell)
  (:init (and (at entry)
              (way entry fork) (way fork sign) (way sign fork) (way fork left) (way fork right)
              (oneof (heaven left) (heaven right))
              (or (not (sign-points-left)) (heaven left))
              (or (sign-points-left) (not (heaven left)))))
  (:goal (happy)))
; plans: 7
