; A courier in a hospital brings a patient the drug that she needs: her room and the drug are asked for on the way.
; Shows: a goal about a value that nobody knows when the plan is made, and values that are used and kept.
; ./pks plan 7
; ./pks exec 7
(pks 1)
(domain
  (types room patient drug)
  (objects (room desk ward1 ward2 ward3) (patient ann bob) (drug pill drops balm))
  (predicates (has drug) (given patient drug))
  (functions (here room) (room-of patient room) (needs patient drug))
  (action go (params (?r room)) (pre (not-derived (k (= (here) ?r))))
    (effects (assign (here) ?r)) (knows (kf (= (here) ?r))))
  (action ask (params (?p patient)) (pre (k (= (here) desk)) (not-derived (kv (room-of ?p))))
    (senses (sense-value (room-of ?p))) (knows (kv (room-of ?p))))
  (action read-chart (params (?p patient)) (pre (k (= (here) (room-of ?p))) (not-derived (kv (needs ?p))))
    (senses (sense-value (needs ?p))) (knows (kv (needs ?p))))
  (action fetch (params (?d drug)) (pre (k (= (here) desk)) (not-derived (k (has ?d))))
    (effects (set (has ?d))) (knows (kf (has ?d))))
  (action give (params (?p patient) (?d drug)) (pre (k (has ?d)) (k (= (here) (room-of ?p))))
    (effects (set (given ?p ?d)) (unset (has ?d))) (knows (kf (given ?p ?d)) (kf (not (has ?d))))))
(problem
  (init (kf (= (here) desk)))
  (goal (k (given ann (needs ann)))))
(world
  (values ((here) desk) ((room-of ann) ward2) ((room-of bob) ward1) ((needs ann) drops) ((needs bob) pill)))
