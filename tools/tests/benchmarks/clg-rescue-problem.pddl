(define (problem rescue-1)
  (:domain rescue)
  (:objects base north south - site eye - drone mole lifter - robot child - victim)
  (:init
    (is-at eye base) (is-at mole base) (is-at lifter base)
    (reachable base) (reachable north) (reachable south)
    (oneof (is-at child north) (is-at child south)))
  (:goal (saved child)))
