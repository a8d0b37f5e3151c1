; The file doesn't begin with its version.
; ./pks check
(domain (predicates (p)))
(problem (goal (k (p))))
