; A package lies at one of two airports, and is brought to the other by a plane.
; ./pks plan 5
(define (problem logistics-2)
  (:domain logistics)
  (:objects north south - airport p - plane box - package)
  (:init
    (at p north)
    (oneof (lies box north) (lies box south)))
  (:goal (lies box south))
  (:metric minimize (total-cost)))
