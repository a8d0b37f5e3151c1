(define (domain rocksample)
  (:requirements :adl :typing)
  (:types cell rock)
  (:predicates (at ?c - cell) (next ?a ?b - cell) (rock-at ?r - rock ?c - cell)
               (good ?r - rock) (sampled ?r - rock) (left))
  (:action move
    :parameters (?a ?b - cell)
    :precondition (and (at ?a) (next ?a ?b))
    :effect (and (at ?b) (not (at ?a))))
  (:action check
    :parameters (?r - rock ?c - cell)
    :precondition (and (at ?c) (rock-at ?r ?c))
    :sensing (good ?r))
  (:action sample
    :parameters (?r - rock ?c - cell)
    :precondition (and (at ?c) (rock-at ?r ?c) (good ?r))
    :effect (sampled ?r)))
