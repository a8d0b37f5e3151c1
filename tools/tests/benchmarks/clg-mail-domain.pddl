(define (domain mail)
  (:requirements :adl :typing)
  (:types robot person letter - thing room)
  (:constants robby - robot)
  (:predicates (at ?t - thing ?r - room) (holds ?l - letter) (addressed ?l - letter ?p - person)
               (delivered ?l - letter))
  (:action go
    :parameters (?from ?to - room)
    :precondition (and (at robby ?from) (not (= ?from ?to)))
    :effect (and (not (at robby ?from)) (at robby ?to)
                 (forall (?l - letter)
                   (when (holds ?l) (and (not (at ?l ?from)) (at ?l ?to))))))
  (:action pick-up
    :parameters (?l - letter ?r - room)
    :precondition (and (at robby ?r) (at ?l ?r) (not (holds ?l)))
    :effect (holds ?l))
  (:action look-for
    :parameters (?p - person ?r - room)
    :precondition (at robby ?r)
    :observe (at ?p ?r))
  (:action hand-over
    :parameters (?l - letter ?p - person ?r - room)
    :precondition (and (at robby ?r) (at ?p ?r) (holds ?l) (addressed ?l ?p))
    :effect (and (not (holds ?l)) (delivered ?l))))
