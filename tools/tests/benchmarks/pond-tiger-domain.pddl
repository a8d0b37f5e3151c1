(define (domain TIGER)
  (:requirements :strips :conditional-effects)
  (:predicates (tiger-left) (tiger-right) (alive) (outside))
  (:action LISTEN
    :parameters ()
    :precondition (and (alive) (not (outside)))
    :observe (tiger-left))
  (:action OPEN-LEFT
    :parameters ()
    :precondition (alive)
    :effect (and (outside) (when (tiger-left) (not (alive)))))
  (:action OPEN-RIGHT
    :parameters ()
    :precondition (alive)
    :effect (and (outside) (when (tiger-right) (not (alive))))))
