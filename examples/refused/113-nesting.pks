; Lists are nested too deep.
; ./pks check
(pks 1)
(domain (predicates ((((((((((((p))))))))))))))
(problem (goal (k (p))))
