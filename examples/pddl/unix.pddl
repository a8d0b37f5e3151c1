; A file is looked for in a tree of directories, and copied.
(define (domain unix)
  (:requirements :strips :typing :negative-preconditions)
  (:types dir file)
  (:predicates
    (sub ?d ?above - dir)
    (current ?d - dir)
    (in ?f - file ?d - dir))

  (:action ls
    :parameters (?d - dir ?f - file)
    :precondition (current ?d)
    :observe (in ?f ?d))

  (:action cd-down
    :parameters (?from ?to - dir)
    :precondition (and (current ?from) (sub ?to ?from) (not (= ?from ?to)))
    :effect (and (not (current ?from)) (current ?to)))

  (:action cd-up
    :parameters (?from ?to - dir)
    :precondition (and (current ?from) (sub ?from ?to) (not (= ?from ?to)))
    :effect (and (not (current ?from)) (current ?to)))

  (:action cp
    :parameters (?f - file ?from ?to - dir)
    :precondition (and (current ?from) (in ?f ?from))
    :effect (in ?f ?to)))
