(define (domain oven)
  (:requirements :typing :durative-actions)
  (:types cake)
  (:predicates (warm) (raw ?c - cake) (baked ?c - cake))
  (:durative-action bake
    :parameters (?c - cake)
    :duration (= ?duration 40)
    :condition (and (over all (warm)) (at start (raw ?c)))
    :effect (and (at end (baked ?c)) (at end (not (raw ?c)))))
  (:action feel
    :parameters ()
    :observe (warm)))
