(define (problem colorballs-3-1)
   (:domain colorballs)
   (:objects
      p1 p2 p3 - pos
      ball - obj
      red green - col)
   (:init
      (adj p1 p2) (adj p2 p1) (adj p2 p3) (adj p3 p2)
      (at p2)
      (trash-at p1 red) (trash-at p3 green)
      (oneof (obj-at ball p2) (obj-at ball p3))
      (oneof (color ball red) (color ball green)))
   (:goal (trashed ball)))
