; Each cure is shown with those before it, and what is mended twice is shown once.
; at 26:18
; at 26:22
; at 27:38
; at 28:22
; at 31:16
; at 32:9
; at 29:28
; at 31:35
; at 31:56
; says: (action a (pre (k (p)) (k (q))) (effects (set (p)))) With it the next fault is `refused 27:38 124`.
; says: write `(k (q))`. Here, in `(pre ..)`, there may stand: `(k LITERAL)`, `(kw LITERAL ..)`, `(kv TERM)`, or one of these in `(not-derived ..)`. It is mended above.
; says: (action go (params (?r room)) (pre (k (= (here) hall)))
; says: (effects (assign (here) ?r)) (knows (kf (= (here) ?r))))
; says: (problem (init (kf (held l1)) (kf (= (here) hall)) (kf (lit l2)))
; says: (goal (k (held l1)))) With this and what is mended above the next fault is `refused 29:28 203`.
; says: (objects (room hall) (light l1 l2)) With this and what is mended above the file is accepted. 9 faults.
; never: (pre (k (q)))
; never: Others may show
(pks 1)
(domain
  (types room light)
  (objects (room hall) (light l1))
  (predicates (p) (q) (held light) (lit light))
  (functions (here room))
  (action a (pre (p) (q)) (effects (set (p))))
  (action go (params (?r room)) (pre (here hall))
    (effects (assign here ?r)) (knows (kf (= (here) ?r))))
  (action take (params (?l lihgt)) (pre (k (lit ?l)))
    (effects (set (held ?l))) (knows (kf (held ?l)))))
(problem (init (k (held l1)) (kf (here hall)) (kf (lit l2)))
  (goal (held l1)))
