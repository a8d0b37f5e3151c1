(define (domain wumpus)
   (:requirements :strips :typing)
   (:types pos)
   (:predicates (adj ?i ?j - pos) (at ?i - pos) (safe ?i - pos)
                (wumpus-at ?x - pos) (stench ?x - pos)
                (gold-at ?x - pos) (got-the-treasure) (alive))

   (:action move
    :parameters (?i - pos ?j - pos)
    :precondition (and (adj ?i ?j) (at ?i) (alive) (safe ?j))
    :effect (and (not (at ?i)) (at ?j)))

   (:action smell_wumpus
    :parameters (?pos - pos)
    :precondition (and (alive) (at ?pos))
    :observe (stench ?pos))

   (:action grab
    :parameters (?i - pos)
    :precondition (and (at ?i) (gold-at ?i) (alive))
    :effect (and (got-the-treasure) (not (gold-at ?i)))))
