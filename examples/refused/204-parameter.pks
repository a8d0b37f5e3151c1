; A parameter that the action doesn't have.
; ./pks check
(pks 1)
(domain (types t) (objects (t a)) (predicates (p t))
  (action x (pre (k (p ?y)))))
(problem (goal (k (p a))))
