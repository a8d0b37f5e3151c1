; A name isn't declared.
; ./pks check
(pks 1)
(domain (predicates (open)))
(problem (goal (k (opem))))
