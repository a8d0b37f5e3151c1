(define (domain moves)
  (:requirements :strips)
  (:predicates (at ?x) (road ?x ?y))
  (:action move
    :parameters (?from ?to)
    :precondition (and (at ?from) (road ?from ?to))
    :effect (and (at ?to) (not (at ?from)))))
(define (problem moves-1)
  (:domain moves)
  (:objects a b)
  (:init (at a) (road a b))
  (:goal (and (at b) (not (at a)))))

; writes: ; (not (at ?from)) isn't known afterwards: (at ?to) may be about the same. With (k (not (= ?from ?to))) in pre it is.
; writes: (lcw (road _ _))
; writes: (kf (not (at b)))
; plans not: 3

; warns: :4:3: (not (at ?from)) won't be known after move: (at ?to) may be about the same. Write (k (not (= ?from ?to))) in pre, and (kf (not (at ?from))) in knows; --known does, since nothing is lost by it.
; known: 1
