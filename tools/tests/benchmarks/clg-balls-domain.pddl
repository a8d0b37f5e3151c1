(define (domain colorballs)
   (:requirements :strips :typing)
   (:types pos obj col)
   (:predicates (adj ?i ?j - pos) (at ?i - pos) (holding ?o - obj)
                (trashed ?o - obj) (color ?o - obj ?c - col)
                (obj-at ?o - obj ?i - pos) (trash-at ?i - pos ?c - col))

   (:action observe-ball
    :parameters (?i - pos ?o - obj)
    :precondition (and (at ?i) (not (holding ?o)) (not (trashed ?o)))
    :observe (obj-at ?o ?i))

   (:action observe-color
    :parameters (?c - col ?o - obj)
    :precondition (holding ?o)
    :observe (color ?o ?c))

   (:action move
    :parameters (?i ?j - pos)
    :precondition (and (at ?i) (adj ?i ?j))
    :effect (and (not (at ?i)) (at ?j)))

   (:action pickup
    :parameters (?o - obj ?i - pos)
    :precondition (and (at ?i) (obj-at ?o ?i))
    :effect (and (holding ?o) (not (obj-at ?o ?i))))

   (:action trash
    :parameters (?o - obj ?c - col ?i - pos)
    :precondition (and (color ?o ?c) (trash-at ?i ?c) (holding ?o) (at ?i))
    :effect (and (not (holding ?o)) (trashed ?o))))
