; A bomb in one of two packages. PDDL has the plan dunk p1, flush, dunk p2.
; ./pks plan 5
(define (problem blind-1)
  (:domain bomb-unseen)
  (:objects p1 p2 - package)
  (:init (oneof (in p1) (in p2)))
  (:goal (defused)))
