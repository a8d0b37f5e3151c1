(define (domain localize)
  (:requirements :adl)
  (:types cell)
  (:predicates (at ?c - cell) (east-of ?a ?b - cell))
  (:action move-east
    :effect (and (forall (?x ?y - cell)
      (when (and (at ?x) (east-of ?y ?x)) (and (not (at ?x)) (at ?y))))))
  (:action move-west
    :effect (and (forall (?x ?y - cell)
      (when (and (at ?x) (east-of ?x ?y)) (and (not (at ?x)) (at ?y))))))
  (:action ping
    :parameters (?c - cell)
    :observe (at ?c)))
