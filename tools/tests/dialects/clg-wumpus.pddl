; A small cave: the wumpus is in one of two cells, and smells in the cells next to it; a tunnel, through which nothing
; smells, leads from p2-1 to p1-3.
(define (domain wumpus)
  (:requirements :strips :typing)
  (:types pos)
  (:predicates (adj ?i ?j - pos) (at ?i - pos) (safe ?i - pos) (wumpus-at ?x - pos)
               (alive) (stench ?x - pos) (gold-at ?i - pos) (got-the-treasure))
  (:action move
    :parameters (?i - pos ?j - pos)
    :precondition (and (adj ?i ?j) (at ?i) (alive) (safe ?j))
    :effect (and (not (at ?i)) (at ?j)))
  (:action smell_wumpus
    :parameters (?pos - pos)
    :precondition (and (alive) (at ?pos))
    :observe (stench ?pos))
  (:action say-safe
    :parameters (?pos - pos)
    :precondition (and (not (wumpus-at ?pos)))
    :effect (safe ?pos))
  (:action grab
    :parameters (?i - pos)
    :precondition (and (at ?i) (gold-at ?i) (alive))
    :effect (and (got-the-treasure) (not (gold-at ?i)))))

(define (problem wumpus-3)
  (:domain wumpus)
  (:objects p1-3 p2-1 p2-2 p2-3 - pos)
  (:init
    (adj p2-1 p2-2) (adj p2-2 p2-1) (adj p2-2 p2-3) (adj p2-3 p2-2)
    (adj p2-1 p1-3) (adj p1-3 p2-1) (adj p1-3 p2-3) (adj p2-3 p1-3)
    (at p2-1) (alive) (safe p2-1) (safe p2-3) (gold-at p2-3)
    (oneof (wumpus-at p1-3) (wumpus-at p2-2))
    (or (not (stench p2-3)) (wumpus-at p1-3) (wumpus-at p2-2))
    (or (stench p2-3) (not (wumpus-at p1-3)))
    (or (stench p2-3) (not (wumpus-at p2-2)))
    (or (not (stench p2-1)) (wumpus-at p2-2))
    (or (stench p2-1) (not (wumpus-at p2-2))))
  (:goal (and (got-the-treasure) (alive))))
; plans: 6
; known: 6
