; A bomb in one of three packages; the toilet is clogged at first.
; ./pks plan 6
(define (problem bomb-2)
  (:domain bomb-in-the-toilet)
  (:objects p1 p2 p3 - package bowl - toilet)
  (:init
    (clogged bowl)
    (oneof (in p1) (in p2) (in p3)))
  (:goal (defused)))
