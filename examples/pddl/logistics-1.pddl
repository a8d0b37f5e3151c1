; A package lies in one of two shops, and is brought to the depot by a truck.
; ./pks plan 6
(define (problem logistics-1)
  (:domain logistics)
  (:objects depot shop-a shop-b - place t - truck box - package)
  (:init
    (at t shop-a)
    (oneof (lies box shop-a) (lies box shop-b)))
  (:goal (lies box depot))
  (:metric minimize (total-cost)))
