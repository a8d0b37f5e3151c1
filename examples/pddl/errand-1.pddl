; A cup is in one of three rooms, none of which is locked; the plan goes where the answer says.
; ./pks plan 4
(define (problem errand-1)
  (:domain errand)
  (:objects hall kitchen study - room cup - thing)
  (:init
    (= (here) hall)
    (oneof (= (place cup) hall) (= (place cup) kitchen) (= (place cup) study)))
  (:goal (and (held cup) (= (here) hall))))
