; A predicate may not be called `not`.
; ./pks check
(pks 1)
(domain (predicates (not)))
(problem (goal (k (p))))
