; A picture can be had from one of two places; the camera must be calibrated.
(define (domain rover)
  (:requirements :typing)
  (:types waypoint objective)
  (:predicates (at ?w - waypoint) (link ?x ?y - waypoint) (calibrated)
               (visible ?o - objective ?w - waypoint) (have-image ?o - objective))
  (:action drive
    :parameters (?x ?y - waypoint)
    :precondition (and (at ?x) (link ?x ?y))
    :effect (and (not (at ?x)) (at ?y) (not (calibrated))))
  (:action calibrate
    :parameters ()
    :precondition ()
    :effect (calibrated))
  (:action sense-visible
    :parameters (?o - objective ?w - waypoint)
    :precondition (at ?w)
    :sense (visible ?o ?w))
  (:action take-image
    :parameters (?o - objective ?w - waypoint)
    :precondition (and (at ?w) (visible ?o ?w) (calibrated))
    :effect (and (have-image ?o) (not (calibrated)))))

(define (problem rover-2)
  (:domain rover)
  (:objects w1 w2 - waypoint hill - objective)
  (:init (and (at w1) (link w1 w2) (link w2 w1)
              (oneof (visible hill w1) (visible hill w2))))
  (:goal (have-image hill)))
; plans: 5
