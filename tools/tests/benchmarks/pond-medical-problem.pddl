(define (problem medical-3)
  (:domain medical)
  (:init (and
    (oneof (ill i1) (ill i2) (ill i3))
    (not (stain red)) (not (stain blue)) (not (high-count)) (not (cured))))
  (:goal (and (cured) (not (ill i1)) (not (ill i2)) (not (ill i3)))))
