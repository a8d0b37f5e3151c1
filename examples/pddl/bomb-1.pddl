; A bomb in one of two packages, and one toilet.
; ./pks plan 3
(define (problem bomb-1)
  (:domain bomb-in-the-toilet)
  (:objects p1 p2 - package bowl - toilet)
  (:init (oneof (in p1) (in p2)))
  (:goal (defused)))
