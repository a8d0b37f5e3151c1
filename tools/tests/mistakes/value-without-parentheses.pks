; a value said without parentheses of its own
; says: The literal needs parentheses of its own: `(kf (= (here) hall))`.
; says: (problem (init (kf (= (here) hall))) (goal (k (= (here) hall))))
; says: With it the file is accepted.
(pks 1)
(domain (types spot) (objects (spot hall)) (functions (here spot)))
(problem (init (kf here hall)) (goal (k (= (here) hall))))
