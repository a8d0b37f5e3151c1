; What stands on what isn't known: b1 is on b2 or on b3.
(define (domain ebw)
  (:requirements :strips :equality)
  (:predicates (on ?x ?y) (on-table ?x) (clear ?x))
  (:action sense-on
    :parameters (?b1 ?b2)
    :precondition (and (not (= ?b1 ?b2)))
    :observe (on ?b1 ?b2))
  (:action move-to-table
    :parameters (?b1 ?b2)
    :precondition (and (not (= ?b1 ?b2)) (clear ?b1) (on ?b1 ?b2))
    :effect (and (on-table ?b1) (not (on ?b1 ?b2)) (clear ?b2)))
  (:action move-from-table
    :parameters (?b1 ?b2)
    :precondition (and (not (= ?b1 ?b2)) (clear ?b1) (clear ?b2) (on-table ?b1))
    :effect (and (on ?b1 ?b2) (not (on-table ?b1)) (not (clear ?b2)))))

(define (problem ebw-3)
  (:domain ebw)
  (:objects b1 b2 b3)
  (:init (and (on-table b2) (on-table b3) (clear b1)
              (unknown (on b1 b2)) (unknown (on b1 b3)) (unknown (clear b2)) (unknown (clear b3))
              (oneof (on b1 b2) (on b1 b3))
              (oneof (clear b2) (on b1 b2))
              (oneof (clear b3) (on b1 b3))))
  (:goal (and (on b2 b3))))
; plans: 4
