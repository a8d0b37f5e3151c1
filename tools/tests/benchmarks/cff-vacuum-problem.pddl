(define (problem vacuum-3)
  (:domain vacuum)
  (:objects r1 r2 r3 - room)
  (:init (and
    (in r1)
    (door r1 r2) (door r2 r1) (door r2 r3) (door r3 r2)
    (unknown (dirty r1)) (unknown (dirty r2)) (unknown (dirty r3))
    (or (dirty r1) (dirty r2) (dirty r3))))
  (:goal (and (not (dirty r1)) (not (dirty r2)) (not (dirty r3)))))
