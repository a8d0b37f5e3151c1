; Where the file is, only ls tells; it is to be copied home.
(define (domain unix)
  (:requirements :strips :typing)
  (:types file dir)
  (:predicates (cwd ?d - dir) (sub ?d ?e - dir) (file-in ?f - file ?d - dir) (copied ?f - file))
  (:action cd-down
    :parameters (?d ?e - dir)
    :precondition (and (cwd ?d) (sub ?d ?e))
    :effect (and (cwd ?e) (not (cwd ?d))))
  (:action cd-up
    :parameters (?d ?e - dir)
    :precondition (and (cwd ?e) (sub ?d ?e))
    :effect (and (cwd ?d) (not (cwd ?e))))
  (:action ls
    :parameters (?d - dir ?f - file)
    :precondition (cwd ?d)
    :observe (file-in ?f ?d))
  (:action cp-home
    :parameters (?f - file ?d - dir)
    :precondition (and (cwd ?d) (file-in ?f ?d))
    :effect (copied ?f)))

(define (problem unix-1)
  (:domain unix)
  (:objects paper - file root usr tmp - dir)
  (:init (and (cwd root) (sub root usr) (sub root tmp)
              (unknown (file-in paper root)) (unknown (file-in paper usr)) (unknown (file-in paper tmp))
              (oneof (file-in paper root) (file-in paper usr) (file-in paper tmp))))
  (:goal (copied paper)))
; plans: 8
