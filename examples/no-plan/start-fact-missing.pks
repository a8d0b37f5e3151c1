; A robot walks along a corridor, and the file doesn't say where it starts.
; Cause: a precondition asks for what is known, and nothing is known but what init says.
; ./pks plan 4
(pks 1)
(domain
  (types room)
  (objects (room a b c))
  (predicates (at room) (door room room))
  (action go (params (?x room) (?y room))
    (pre (k (at ?x)) (k (door ?x ?y)) (k (not (= ?x ?y))))
    (effects (unset (at ?x)) (set (at ?y)))
    (knows (kf (not (at ?x))) (kf (at ?y)))))
(problem
  (init (kf (door a b)) (kf (door b c)))
  (goal (k (at c))))
