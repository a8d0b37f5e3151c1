; a misspelled word of the problem
; says: code 122
; says: Is `problem` meant?
; says: With it the file is accepted.
(pks 1)
(domain (predicates (p) (q))
 (action a (effects (set (q)))))
(problm (goal (kw (p))))
