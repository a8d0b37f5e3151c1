; Two illnesses, of which one stains blue.
; ./pks plan 4
(define (problem medicine-1)
  (:domain medicine)
  (:objects flu pox - illness blue - colour)
  (:init
    (tells flu blue)
    (tells pox white)
    (oneof (ill flu) (ill pox)))
  (:goal (and (not (ill flu)) (not (ill pox)) (not (dead)))))
