; A robot is in one of three cells of a corridor, and feels only whether it stands in the last.
; Shows: proof by contradiction. After two steps right the side "not in the last" is impossible.
; ./pks plan 6
; ./pks exec 6
(pks 1)
(domain
  (types cell)
  (objects (cell c1 c2 c3))
  (functions (here cell))
  (action right
    (effects (when ((= (here) c1)) (assign (here) c2)) (when ((= (here) c2)) (assign (here) c3))))
  (action feel (senses (sense (= (here) c3))) (knows (kw (= (here) c3)))))
(problem (goal (k (= (here) c3))))
(world (values ((here) c2)))
