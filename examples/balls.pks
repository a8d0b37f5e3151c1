; A ball lies somewhere and has a colour, both unknown; it goes to the can of its colour.
; Shows: a run-time value for where to go, and cases for what to do.
; ./pks plan 7
; ./pks exec 7
(pks 1)
(domain
  (types cell ball colour)
  (objects (cell a b c) (ball ball1) (colour red blue))
  (predicates (held ball) (trashed ball))
  (functions (here cell) (loc ball cell) (hue ball colour) (can colour cell))
  (action go (params (?c cell)) (pre (not-derived (k (= (here) ?c))))
    (effects (assign (here) ?c)) (knows (kf (= (here) ?c))))
  (action radar (params (?b ball)) (pre (not-derived (kv (loc ?b))))
    (senses (sense-value (loc ?b))) (knows (kv (loc ?b))))
  (action pick (params (?b ball))
    (pre (k (= (loc ?b) (here))) (not-derived (k (held ?b))))
    (effects (set (held ?b))) (knows (kf (held ?b))))
  (action look-hue (params (?b ball)) (pre (k (held ?b)) (not-derived (kv (hue ?b))))
    (senses (sense-value (hue ?b))) (knows (kv (hue ?b))))
  (action trash (params (?b ball) (?h colour))
    (pre (k (held ?b)) (k (= (hue ?b) ?h)) (k (= (here) (can ?h))))
    (effects (unset (held ?b)) (set (trashed ?b)))
    (knows (kf (not (held ?b))) (kf (trashed ?b)))))
(problem
  (init (kf (= (here) a)) (kf (= (can red) a)) (kf (= (can blue) c)))
  (goal (k (trashed ball1))))
(world (values ((here) a) ((loc ball1) b) ((hue ball1) blue) ((can red) a) ((can blue) c)))
