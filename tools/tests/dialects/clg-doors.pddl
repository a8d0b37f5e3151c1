; One of three doors in a wall is open.
(define (domain doors)
  (:requirements :typing)
  (:types pos)
  (:predicates (adj ?i ?j - pos) (at ?i - pos) (opened ?i - pos))
  (:action sense-door
    :parameters (?i ?j - pos)
    :precondition (and (at ?i) (adj ?i ?j))
    :observe (opened ?j))
  (:action move
    :parameters (?i ?j - pos)
    :precondition (and (adj ?i ?j) (at ?i) (opened ?j))
    :effect (and (not (at ?i)) (at ?j))))

(define (problem doors-3)
  (:domain doors)
  (:objects p1-1 p1-2 p1-3 p2-1 p2-2 p2-3 p3-1 p3-2 p3-3 - pos)
  (:init
    (adj p1-1 p1-2) (adj p1-2 p1-1) (adj p1-2 p1-3) (adj p1-3 p1-2)
    (adj p3-1 p3-2) (adj p3-2 p3-1) (adj p3-2 p3-3) (adj p3-3 p3-2)
    (adj p1-1 p2-1) (adj p2-1 p3-1) (adj p1-2 p2-2) (adj p2-2 p3-2) (adj p1-3 p2-3) (adj p2-3 p3-3)
    (opened p1-1) (opened p1-2) (opened p1-3) (opened p3-1) (opened p3-2) (opened p3-3)
    (at p1-2)
    (oneof (opened p2-1) (opened p2-2) (opened p2-3)))
  (:goal (at p3-2)))
; plans: 10
