; A list isn't closed: the parenthesis behind the effect of grip is missing.
(define (domain gripper)
  (:requirements :typing)
  (:types ball room)
  (:predicates (at-robby ?r - room) (at ?b - ball ?r - room) (carry ?b - ball))
  (:action grip
    :parameters (?b - ball ?r - room)
    :precondition (and (at-robby ?r) (at ?b ?r))
    :effect (and (carry ?b) (not (at ?b ?r)))
  (:action look
    :parameters (?b - ball ?r - room)
    :precondition (at-robby ?r)
    :observe (at ?b ?r)))

(define (problem gripper-1)
  (:domain gripper)
  (:objects b - ball r1 - room)
  (:init (and (at-robby r1) (unknown (at b r1))))
  (:goal (carry b)))
; says: by the indentation `(:action grip` lost a `)`
; says: Write one more at the end of line
