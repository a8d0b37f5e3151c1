; A count that a sense would tell: three of a clause, no two of which exclude each other.
(define (domain mines)
  (:requirements :typing)
  (:types cell)
  (:predicates (mine ?c - cell) (near ?c - cell) (opened ?c - cell))
  (:action touch
    :parameters (?c - cell)
    :precondition (not (mine ?c))
    :effect (opened ?c)
    :observe (near ?c)))

(define (problem mines-3)
  (:domain mines)
  (:objects c1 c2 c3 c4 - cell)
  (:init (and (unknown (mine c2)) (unknown (mine c3)) (unknown (mine c4)) (unknown (near c1))
              (or (mine c2) (mine c3) (mine c4))))
  (:goal (opened c1)))
; plans: 1
