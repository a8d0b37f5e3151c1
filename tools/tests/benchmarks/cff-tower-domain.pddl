(define (domain tower)
  (:requirements :adl :derived-predicates)
  (:predicates (on ?x ?y) (above ?x ?y) (marked ?x) (checked ?x))
  (:derived (above ?x ?y)
    (or (on ?x ?y)
        (exists (?z) (and (on ?x ?z) (above ?z ?y)))))
  (:action look
    :parameters (?x)
    :observe (marked ?x))
  (:action check
    :parameters (?x ?y)
    :precondition (and (marked ?x) (above ?y ?x))
    :effect (checked ?x)))
