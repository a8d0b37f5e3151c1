(define (domain unix)
  (:requirements :strips :typing)
  (:types file dir)
  (:predicates (sub-dir ?p ?c - dir) (file-in-dir ?f - file ?d - dir) (cur-dir ?d - dir))
  (:action cd-down
    :parameters (?i ?j - dir)
    :precondition (and (cur-dir ?i) (sub-dir ?i ?j))
    :effect (and (cur-dir ?j) (not (cur-dir ?i))))
  (:action cd-up
    :parameters (?i ?j - dir)
    :precondition (and (cur-dir ?i) (sub-dir ?j ?i))
    :effect (and (cur-dir ?j) (not (cur-dir ?i))))
  (:action ls
    :parameters (?d - dir ?f - file)
    :precondition (cur-dir ?d)
    :observe (file-in-dir ?f ?d))
  (:action mv-up
    :parameters (?i ?j - dir ?f - file)
    :precondition (and (cur-dir ?i) (sub-dir ?j ?i) (file-in-dir ?f ?i))
    :effect (and (file-in-dir ?f ?j) (not (file-in-dir ?f ?i)))))
