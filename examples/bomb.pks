; A bomb is in one of two packages and can't be seen; dunking the right one defuses it.
; Shows: learning by what didn't happen. No defused bomb means that it wasn't in the first package.
; ./pks plan 5
(pks 1)
(domain
  (types package)
  (objects (package p1 p2))
  (predicates (bomb package) (defused) (clogged))
  (action dunk (params (?p package)) (pre (k (not (clogged))))
    (effects (when ((bomb ?p)) (set (defused))) (set (clogged)))
    (knows (kf (clogged)) (if ((k (bomb ?p))) (kf (defused)))))
  (action listen (senses (sense (defused))) (knows (kw (defused))))
  (action flush (pre (k (clogged)))
    (effects (unset (clogged))) (knows (kf (not (clogged))))))
(problem
  (init (kx (bomb p1) (bomb p2)) (kf (not (clogged))) (kf (not (defused))))
  (goal (k (defused))))
