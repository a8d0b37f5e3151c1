(define (domain digits)
  (:requirements :strips :equality)
  (:predicates (at ?x ?y) (sense ?x))
  (:action step
    :parameters (?x ?y ?z)
    :precondition (and (at ?x ?y) (not (= ?y 2)) (not (= ?y ?z)))
    :effect (and (not (at ?x ?y)) (at ?x ?z) (sense ?z))))
(define (problem digits-1)
  (:domain digits)
  (:objects 1 2 3)
  (:init (at 1 3))
  (:goal (and (at 1 2) (sense 2))))

; writes: (objects (object x1 x2 x3))
; writes: (kf (at x1 x3))
; writes: (k (not (= ?y x2)))
; writes: (set (sense ?z))
; plans: 1
