; The cup is in the kitchen, and nobody knows whether that is locked.
; ./pks plan 6
(define (problem errand-2)
  (:domain errand)
  (:objects hall kitchen - room cup - thing)
  (:init
    (= (here) hall)
    (= (place cup) kitchen)
    (unknown (locked kitchen)))
  (:goal (and (held cup) (= (here) hall))))
