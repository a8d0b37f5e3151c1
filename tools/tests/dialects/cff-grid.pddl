; A door is locked or not, and the key is in one of two cells.
(define (domain egrid)
  (:requirements :strips :typing)
  (:types cell key)
  (:predicates (conn ?x ?y - cell) (at-robot ?x - cell) (locked ?x - cell)
               (key-at ?k - key ?x - cell) (holding ?k - key))
  (:action move
    :parameters (?x ?y - cell)
    :precondition (and (at-robot ?x) (conn ?x ?y) (not (locked ?y)))
    :effect (and (at-robot ?y) (not (at-robot ?x))))
  (:action feel-door
    :parameters (?x ?y - cell)
    :precondition (and (at-robot ?x) (conn ?x ?y))
    :observe (locked ?y))
  (:action look-for-key
    :parameters (?k - key ?x - cell)
    :precondition (at-robot ?x)
    :observe (key-at ?k ?x))
  (:action pickup
    :parameters (?k - key ?x - cell)
    :precondition (and (at-robot ?x) (key-at ?k ?x))
    :effect (and (holding ?k) (not (key-at ?k ?x))))
  (:action unlock
    :parameters (?k - key ?x ?y - cell)
    :precondition (and (at-robot ?x) (conn ?x ?y) (holding ?k))
    :effect (and (not (locked ?y)))))

(define (problem egrid-1)
  (:domain egrid)
  (:objects c1 c2 c3 - cell k - key)
  (:init (and (at-robot c1) (conn c1 c2) (conn c2 c1) (conn c2 c3) (conn c3 c2)
              (unknown (locked c3))
              (oneof (key-at k c1) (key-at k c2))
              (unknown (key-at k c1)) (unknown (key-at k c2))))
  (:goal (at-robot c3)))
; plans: 6
