; A valve is to be opened as far as the dose says. `measure` reads the moisture and not the dose; and what `water` tells
; never counts, since of an equation of two functions the one that is declared later stands first.
(pks 1)
(domain
  (types bed amount)
  (objects (bed east) (amount low high))
  (functions (moisture bed amount) (valve bed amount) (dose bed amount))
  (action measure (params (?b bed))
    (senses (sense-value (moisture ?b))) (knows (kv (moisture ?b))))
  (action water (params (?b bed)) (pre (kv (dose ?b)))
    (effects (assign (valve ?b) (dose ?b))) (knows (kf (= (valve ?b) (dose ?b))))))
(problem
  (goal (k (= (valve east) (dose east)))))
