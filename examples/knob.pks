; Turn a knob to v4, test, and turn it back to where it stood at the start, wherever that was.
; Shows: a run-time value kept for later. A second function remembers the value at the start.
; ./pks plan 4
; ./pks exec 4
(pks 1)
(domain
  (types level)
  (objects (level v1 v2 v3 v4))
  (predicates (tested))
  (functions (knob level) (knob-first level))
  (action read-knob (pre (k (= (knob) (knob-first))))
    (senses (sense-value (knob-first))) (knows (kv (knob-first))))
  (action turn (params (?l level)) (effects (assign (knob) ?l)) (knows (kf (= (knob) ?l))))
  (action test (pre (k (= (knob) v4))) (effects (set (tested))) (knows (kf (tested)))))
(problem
  (init (kf (= (knob) (knob-first))))
  (goal (k (tested)) (k (= (knob) (knob-first)))))
(world (values ((knob) v2) ((knob-first) v2)))
