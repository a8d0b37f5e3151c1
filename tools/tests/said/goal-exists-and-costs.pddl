; A goal that is met by one of several objects, an action whose cost hangs on its arguments, and one with two rovers too many.
(define (domain d)
  (:requirements :adl :action-costs)
  (:types rover place tool)
  (:predicates (at ?r - rover ?x - place) (way ?x ?y - place) (has ?r - rover ?t - tool) (dug ?x - place))
  (:functions (total-cost) - number (far ?x ?y - place) - number)
  (:action go
    :parameters (?r - rover ?x ?y - place)
    :precondition (and (at ?r ?x) (way ?x ?y))
    :effect (and (not (at ?r ?x)) (at ?r ?y) (increase (total-cost) (far ?x ?y))))
  (:action dig
    :parameters (?r - rover ?t - tool ?x ?y ?z - place)
    :precondition (and (at ?r ?x) (has ?r ?t) (way ?x ?y) (way ?y ?z) (not (= ?x ?z)))
    :effect (and (dug ?x) (increase (total-cost) 2))))
(define (problem e)
  (:domain d)
  (:objects r1 r2 - rover a b c - place spade - tool)
  (:init (at r1 a) (at r2 b) (has r1 spade) (way a b) (way b c) (way c a)
    (= (total-cost) 0) (= (far a b) 5) (= (far b c) 7) (= (far c a) 5))
  (:goal (exists (?x - place) (and (dug ?x) (not (= ?x a)))))
  (:metric minimize (total-cost)))
; writes: (action go-1 (cost 5)
; writes: (action go-2 (cost 7)
; writes: In PDDL it has more than 4 parameters: here ?t is spade.
; writes: (action finish (params (?x place))
; plans: 3
; plans not: 2
