; Hidden among directories, with an explicit list of what is open.
(define (domain unix)
  (:requirements :typing)
  (:types dir)
  (:predicates (pwd ?d - dir) (child ?p - dir ?d - dir) (here ?d - dir) (moved))
  (:action ls
    :parameters (?d - dir)
    :precondition (pwd ?d)
    :sensed (here ?d))
  (:action cd
    :parameters (?from ?to - dir)
    :precondition (and (pwd ?from) (or (child ?from ?to) (child ?to ?from)))
    :effect (and (not (pwd ?from)) (pwd ?to)))
  (:action mv
    :parameters (?d - dir)
    :precondition (and (pwd ?d) (here ?d))
    :effect (and (moved) (not (here ?d)))))

(define (problem unix-2)
  (:domain unix)
  (:objects root a b - dir)
  (:init (and (pwd root) (child root a) (child root b) (oneof (here root) (here a) (here b))))
  (:goal (moved)))
; plans: 8
