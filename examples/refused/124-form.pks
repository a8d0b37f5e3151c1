; A form that isn't what the grammar has here.
; ./pks check
(pks 1)
(domain (predicates (p)))
(problem (goal (p)))
