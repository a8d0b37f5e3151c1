; A term of the wrong type.
; ./pks check
(pks 1)
(domain (types t u) (objects (t a) (u b)) (predicates (p t)))
(problem (goal (k (p b))))
