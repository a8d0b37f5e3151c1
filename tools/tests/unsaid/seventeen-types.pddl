; says: there are at most 16 types, and here are 17
; says: Leave types out
(define (domain d)
  (:types a b c d e f g h i j k l m n o p q)
  (:predicates (r))
  (:action act :effect (r)))
(define (problem e)
  (:domain d)
  (:init)
  (:goal (r)))
