; function without value
; says: code 209
; says: No object has the type `t`
(pks 1)
(domain (types t) (predicates (p t))(functions (f t)))
(problem (goal (kv (f))))
