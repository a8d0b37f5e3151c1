; a comment of another language
; says: A comment begins with `;`.
; says: ; the lamp
; says: With it the file is accepted.
(pks 1)
(domain
  # the lamp
  (predicates (lit))       # is it lit?
  (action light (effects (set (lit))) (knows (kf (lit)))))
(problem (goal (k (lit))))
