; Soil is at one of two waypoints: the rover drives there, analyses it and tells.
(define (domain erovers)
  (:requirements :strips :typing)
  (:types rover waypoint)
  (:predicates (at ?r - rover ?w - waypoint) (can-traverse ?r - rover ?x - waypoint ?y - waypoint)
               (soil ?w - waypoint) (have-analysis ?r - rover ?w - waypoint) (communicated))
  (:action navigate
    :parameters (?r - rover ?y ?z - waypoint)
    :precondition (and (at ?r ?y) (can-traverse ?r ?y ?z))
    :effect (and (not (at ?r ?y)) (at ?r ?z)))
  (:action sense-soil
    :parameters (?r - rover ?w - waypoint)
    :precondition (and (at ?r ?w))
    :observe (soil ?w))
  (:action sample
    :parameters (?r - rover ?w - waypoint)
    :precondition (and (at ?r ?w) (soil ?w))
    :effect (and (have-analysis ?r ?w) (not (soil ?w))))
  (:action communicate
    :parameters (?r - rover ?w - waypoint)
    :precondition (have-analysis ?r ?w)
    :effect (communicated)))

(define (problem erovers-1)
  (:domain erovers)
  (:objects rover0 - rover w0 w1 w2 - waypoint)
  (:init (and (at rover0 w0)
              (can-traverse rover0 w0 w1) (can-traverse rover0 w1 w0)
              (can-traverse rover0 w0 w2) (can-traverse rover0 w2 w0)
              (oneof (soil w1) (soil w2)) (unknown (soil w1)) (unknown (soil w2))))
  (:goal (communicated)))
; plans: 7
