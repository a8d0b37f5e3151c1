; A third wildcard.
; ./pks check
(pks 1)
(domain (types t) (objects (t a)) (predicates (p t t t))
  (action x (effects (clear (p _ _ _)))))
(problem (goal (k (p a a a))))
