; Eight small actions, one for each way in which acting or sensing may make something known.
; Shows: the eight cases of `knows`, J1 to J8, each as small as it can be.
; ./pks plan 3
(pks 1)
(domain
  (types slot)
  (objects (slot a b))
  (predicates (full slot) (lit slot) (wet))
  (functions (pointer slot) (mark slot))
  ; J1: a fact that an effect makes so
  (action fill (params (?x slot))
    (effects (set (full ?x))) (knows (kf (full ?x))))
  ; J2: a value that an effect assigns
  (action point (params (?x slot))
    (effects (assign (pointer) ?x)) (knows (kf (= (pointer) ?x))))
  ; J3: whether what is sensed is so
  (action feel
    (senses (sense (wet) (full a))) (knows (kw (wet) (full a))))
  ; J4: whether one of the atoms that are sensed together is so
  (action look
    (senses (sense-all (full _))) (knows (kw (full a)) (kw (full b))))
  ; J5: whether a fact is so after an effect whose condition the agent knows the truth of
  (action rain (pre (kw (wet)) (kw (lit a)))
    (effects (when ((wet)) (unset (lit a)))) (knows (kw (lit a))))
  ; J6: a value that is sensed
  (action read-mark
    (senses (sense-value (mark))) (knows (kv (mark))))
  ; J7: a value that is assigned from a known one
  (action follow (pre (kv (mark)))
    (effects (assign (pointer) (mark))) (knows (kv (pointer))))
  ; J8: that nothing is left where all was cleared
  (action empty-all
    (effects (clear (full _))) (knows (lcw (full _)))))
(problem
  (init (kf (not (= (mark) a))))
  (goal (k (not (full b))) (k (full a)) (k (= (pointer) (mark)))))
