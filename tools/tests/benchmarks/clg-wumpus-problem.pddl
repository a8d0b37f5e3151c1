(define (problem wumpus-3x2)
   (:domain wumpus)
   (:objects p1-1 p2-1 p3-1 p1-2 p2-2 p3-2 - pos)
   (:init
     (and
      (adj p1-1 p2-1) (adj p2-1 p1-1) (adj p2-1 p3-1) (adj p3-1 p2-1)
      (adj p1-2 p2-2) (adj p2-2 p1-2) (adj p2-2 p3-2) (adj p3-2 p2-2)
      (adj p1-1 p1-2) (adj p1-2 p1-1) (adj p2-1 p2-2) (adj p2-2 p2-1)
      (adj p3-1 p3-2) (adj p3-2 p3-1)
      (alive)
      (at p2-1)
      (gold-at p3-2)
      (safe p1-1) (safe p2-1) (safe p3-2)

      (oneof (wumpus-at p2-2) (wumpus-at p3-1) (wumpus-at p1-2))
      (oneof (safe p2-2) (wumpus-at p2-2))
      (oneof (safe p3-1) (wumpus-at p3-1))
      (oneof (safe p1-2) (wumpus-at p1-2))

      (or (not (stench p2-1)) (wumpus-at p2-2) (wumpus-at p3-1))
      (or (not (wumpus-at p2-2)) (stench p2-1))
      (or (not (wumpus-at p3-1)) (stench p2-1))

      (or (not (stench p1-1)) (wumpus-at p1-2))
      (or (not (wumpus-at p1-2)) (stench p1-1))

      (or (not (stench p1-2)) (wumpus-at p2-2))
      (or (not (wumpus-at p2-2)) (stench p1-2))))
   (:goal (and (got-the-treasure) (alive))))
