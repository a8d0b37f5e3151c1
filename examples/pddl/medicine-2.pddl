; Three illnesses, of which two stain.
; ./pks plan 6
(define (problem medicine-2)
  (:domain medicine)
  (:objects flu pox gout - illness blue red - colour)
  (:init
    (tells flu blue)
    (tells pox red)
    (tells gout white)
    (oneof (ill flu) (ill pox) (ill gout)))
  (:goal (and (not (ill flu)) (not (ill pox)) (not (ill gout)) (not (dead)))))
