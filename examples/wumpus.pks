; A monster is in one of two cells on the way to the gold; its smell drifts to whoever fans the air.
; Shows: a walk over a map of known facts, and a step that needs a negative fact to be known.
; ./pks plan 6
(pks 1)
(domain
  (types cell)
  (objects (cell c11 c12 c21 c22))
  (predicates (next cell cell) (at cell) (monster cell) (smell) (have-gold))
  (action move (params (?a cell) (?b cell))
    (pre (k (at ?a)) (k (next ?a ?b)) (k (not (= ?a ?b))) (k (not (monster ?b))))
    (effects (unset (at ?a)) (set (at ?b)))
    (knows (kf (not (at ?a))) (kf (at ?b))))
  (action fan (params (?a cell) (?b cell))
    (pre (k (at ?a)) (k (next ?a ?b)) (k (not (smell))))
    (effects (when ((monster ?b)) (set (smell)))))
  (action sniff (senses (sense (smell))) (knows (kw (smell))))
  (action grab (pre (k (at c22))) (effects (set (have-gold))) (knows (kf (have-gold)))))
(problem
  (init (kf (at c11)) (kf (not (smell)))
    (kf (next c11 c12)) (kf (next c12 c11)) (kf (next c11 c21)) (kf (next c21 c11))
    (kf (next c12 c22)) (kf (next c22 c12)) (kf (next c21 c22)) (kf (next c22 c21))
    (kx (monster c12) (monster c21)) (kf (not (monster c11))) (kf (not (monster c22))))
  (goal (k (have-gold))))
