; a capital letter in the domain's own word
; says: code 121
; says: Capital letters count: write `domain`.
; says: With it the file is accepted.
(pks 1)
(Domain (predicates (p) (q))
 (action a (effects (set (q)))))
(problem (goal (kw (p))))
