; An atom that the pattern doesn't meet.
; ./pks check
(pks 1)
(domain
  (types t)
  (objects (t a b))
  (predicates (p) (q) (at t))
  (functions (f t) (g t))
  (action x (senses (sense-all (at a))) (knows (kw (at b)))))
(problem (goal (k (p))))
