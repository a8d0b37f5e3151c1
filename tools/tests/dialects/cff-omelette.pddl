; An egg that is grabbed is good or bad: the effect turns out by chance.
(define (domain omelette)
  (:requirements :strips :non-deterministic)
  (:predicates (have-egg) (bad) (in-bowl) (empty-hand))
  (:action grab
    :parameters ()
    :precondition (empty-hand)
    :effect (and (have-egg) (not (empty-hand)) (oneof (bad) (not (bad)))))
  (:action smell :parameters () :precondition (have-egg) :observe (bad))
  (:action crack
    :parameters ()
    :precondition (and (have-egg) (not (bad)))
    :effect (and (in-bowl) (not (have-egg)) (empty-hand))))

(define (problem omelette-1)
  (:domain omelette)
  (:init (and (empty-hand)))
  (:goal (in-bowl)))
; says: an effect can't turn out by chance
; says: a fact that is `unknown` in `:init`
