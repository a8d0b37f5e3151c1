(define (problem medpks-3)
  (:domain medpks)
  (:objects i1 i2 i3 - illness)
  (:init (and
    (not (dead))
    (oneof (ill i0) (ill i1) (ill i2) (ill i3))))
  (:goal (and (ill i0) (not (dead)))))
