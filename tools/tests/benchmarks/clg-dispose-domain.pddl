(define (domain dispose)
   (:requirements :strips :typing :conditional-effects)
   (:types pos obj)
   (:predicates (adj ?i ?j - pos) (at ?i - pos) (holding ?o - obj)
                (obj-at ?o - obj ?i - pos) (trash-at ?i - pos) (disposed ?o - obj))

   (:action move
    :parameters (?i - pos ?j - pos)
    :precondition (and (adj ?i ?j) (at ?i))
    :effect (and (not (at ?i)) (at ?j)))

   (:action look
    :parameters (?o - obj ?i - pos)
    :precondition (at ?i)
    :observe (obj-at ?o ?i))

   (:action grab
    :parameters (?o - obj ?i - pos)
    :precondition (at ?i)
    :effect (when (obj-at ?o ?i) (and (not (obj-at ?o ?i)) (holding ?o))))

   (:action drop
    :parameters (?o - obj ?i - pos)
    :precondition (and (at ?i) (trash-at ?i))
    :effect (when (holding ?o) (and (not (holding ?o)) (disposed ?o)))))
