; Two rocks, each good or not; a sensor tells of a rock from where it lies.
(define (domain rocksample)
  (:requirements :typing)
  (:types location rock)
  (:predicates (at ?l - location) (link ?x ?y - location) (lies ?r - rock ?l - location)
               (good ?r - rock) (settled ?r - rock))
  (:action go
    :parameters (?x ?y - location)
    :precondition (and (at ?x) (link ?x ?y))
    :effect (and (at ?y) (not (at ?x))))
  (:action sense-rock
    :parameters (?r - rock ?l - location)
    :precondition (and (at ?l) (lies ?r ?l))
    :observe (good ?r))
  (:action sample
    :parameters (?r - rock ?l - location)
    :precondition (and (at ?l) (lies ?r ?l) (good ?r))
    :effect (settled ?r))
  (:action leave-it
    :parameters (?r - rock)
    :precondition (not (good ?r))
    :effect (settled ?r)))

(define (problem rocksample-2)
  (:domain rocksample)
  (:objects l1 l2 - location r1 r2 - rock)
  (:init (and (at l1) (link l1 l2) (link l2 l1) (lies r1 l1) (lies r2 l2)
              (unknown (good r1)) (unknown (good r2))))
  (:goal (and (settled r1) (settled r2))))
; plans: 7
