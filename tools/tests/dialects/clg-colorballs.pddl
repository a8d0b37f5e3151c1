; A ball is in one of two cells and of one of two colours; it goes into the bin of its colour.
(define (domain colorballs)
  (:requirements :typing)
  (:types pos obj col gar)
  (:predicates (adj ?i ?j - pos) (at ?i - pos) (holding ?o - obj) (trashed ?o - obj)
               (garbage-at ?t - gar ?p - pos) (obj-at ?o - obj ?i - pos)
               (color ?o - obj ?c - col) (garbage-color ?t - gar ?c - col))
  (:action move
    :parameters (?i - pos ?j - pos)
    :precondition (and (adj ?i ?j) (at ?i))
    :effect (and (not (at ?i)) (at ?j)))
  (:action observe-color
    :parameters (?c - col ?o - obj)
    :precondition (holding ?o)
    :observe (color ?o ?c))
  (:action observe-ball
    :parameters (?pos - pos ?o - obj)
    :precondition (at ?pos)
    :observe (obj-at ?o ?pos))
  (:action pickup
    :parameters (?o - obj ?i - pos)
    :precondition (and (at ?i) (obj-at ?o ?i))
    :effect (and (holding ?o) (not (obj-at ?o ?i))))
  (:action trash
    :parameters (?o - obj ?c - col ?t - gar ?p - pos)
    :precondition (and (color ?o ?c) (garbage-color ?t ?c) (garbage-at ?t ?p) (at ?p) (holding ?o))
    :effect (and (trashed ?o) (not (holding ?o)))))

(define (problem colorballs-2-1)
  (:domain colorballs)
  (:objects p1 p2 - pos o1 - obj red blue - col g1 g2 - gar)
  (:init (and
    (at p1) (adj p1 p2) (adj p2 p1)
    (oneof (obj-at o1 p1) (obj-at o1 p2))
    (oneof (color o1 red) (color o1 blue))
    (garbage-at g1 p1) (garbage-at g2 p1) (garbage-color g1 red) (garbage-color g2 blue)))
  (:goal (trashed o1)))
; plans: 8
