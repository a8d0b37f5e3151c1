; The wumpus is in one of three cells; two of them smell in the same cell.
(define (domain wumpus)
  (:requirements :strips :typing)
  (:types pos)
  (:predicates (adj ?i ?j - pos) (at ?i - pos) (wumpus-at ?x - pos) (stench ?x - pos)
               (exit ?x - pos) (out))
  (:action move
    :parameters (?i - pos ?j - pos)
    :precondition (and (adj ?i ?j) (at ?i) (not (wumpus-at ?j)))
    :effect (and (not (at ?i)) (at ?j)))
  (:action smell
    :parameters (?pos - pos)
    :precondition (at ?pos)
    :observe (stench ?pos))
  (:action leave
    :parameters (?i - pos)
    :precondition (and (at ?i) (exit ?i))
    :effect (out)))

(define (problem wumpus-4)
  (:domain wumpus)
  (:objects a b c d e f x - pos)
  (:init
    (adj a b) (adj b a) (adj b c) (adj c b) (adj b d) (adj d b) (adj c e) (adj d e) (adj a x) (adj x a)
    (at a) (exit e)
    (oneof (wumpus-at c) (wumpus-at d) (wumpus-at f))
    (or (not (stench b)) (wumpus-at c) (wumpus-at d))
    (or (stench b) (not (wumpus-at c)))
    (or (stench b) (not (wumpus-at d)))
    (or (not (stench x)) (wumpus-at c))
    (or (stench x) (not (wumpus-at c))))
  (:goal (out)))
; plans: 8
