; Blocks on a table, of which it isn't known how they stand. Looking tells whether one is on another.
(define (domain blocks)
  (:requirements :strips :typing :negative-preconditions :equality)
  (:types block)
  (:predicates
    (on ?x ?y - block)
    (on-table ?x - block)
    (clear ?x - block))

  (:action look-on
    :parameters (?x ?y - block)
    :precondition (not (= ?x ?y))
    :observe (on ?x ?y))

  (:action look-clear
    :parameters (?x - block)
    :observe (clear ?x))

  (:action put-down
    :parameters (?x ?y - block)
    :precondition (and (clear ?x) (on ?x ?y) (not (= ?x ?y)))
    :effect (and (not (on ?x ?y)) (on-table ?x) (clear ?y)))

  (:action put-on
    :parameters (?x ?y - block)
    :precondition (and (clear ?x) (clear ?y) (on-table ?x) (not (= ?x ?y)))
    :effect (and (not (on-table ?x)) (not (clear ?y)) (on ?x ?y))))
