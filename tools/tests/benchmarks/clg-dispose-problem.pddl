(define (problem dispose-3-1)
   (:domain dispose)
   (:objects p1 p2 p3 - pos can - obj)
   (:init
      (adj p1 p2) (adj p2 p1) (adj p2 p3) (adj p3 p2)
      (at p1)
      (trash-at p1)
      (oneof (obj-at can p1) (obj-at can p2) (obj-at can p3)))
   (:goal (disposed can)))
