; says: the type `cratte` isn't declared
; says: Is `crate` meant? Else add it to `:types`.
(define (domain d)
  (:requirements :strips :typing)
  (:types crate)
  (:predicates (sent ?c - cratte))
  (:action send
    :parameters (?c - crate)
    :effect (sent ?c)))
(define (problem e)
  (:domain d)
  (:objects one - crate)
  (:goal (sent one)))
