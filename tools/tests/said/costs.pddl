(define (domain costs)
  (:requirements :strips :action-costs)
  (:predicates (beeped) (there))
  (:functions (total-cost) - number)
  (:action drive
    :effect (and (increase (total-cost) 12) (there)))
  (:action beep
    :effect (beeped)))
(define (problem costs-1)
  (:domain costs)
  (:init (= (total-cost) 0))
  (:goal (and (beeped) (there)))
  (:metric minimize (total-cost)))

; writes: (action drive (cost 12)
; writes: (action beep ; It costs nothing in PDDL, and 1 here: no cost is less. (effects (set (beeped)))
; plans: 2
