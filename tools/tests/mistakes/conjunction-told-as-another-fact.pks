; a conjunction that is sensed, told as a fact of another name
; says: What it finds out isn't told: `(kw (whole cable) (whole power))`.
; says: With it the file is accepted.
(pks 1)
(domain
  (types part)
  (objects (part cable power))
  (predicates (whole part) (works))
  (action ping (senses (sense (whole cable) (whole power))) (knows (kw (works)))))
(problem (goal (kw (whole cable) (whole power))))
