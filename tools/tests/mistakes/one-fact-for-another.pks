; a sense of one fact that is told as another one
; says: An action tells of its own effects and senses alone, and not that one fact goes with another.
; says: `(kx (led) (broken power))`
(pks 1)
(domain
  (types part)
  (objects (part cable power))
  (predicates (broken part) (led))
  (action look (senses (sense (led))) (knows (kw (led)) (if ((k (not (led)))) (kf (broken power))))))
(problem (goal (kw (broken power))))
