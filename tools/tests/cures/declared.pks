; Predicates and functions as PDDL declares them hide nothing that stands behind them.
; at 15:19
; at 16:21
; at 17:44
; at 19:16
; at 18:20
; says: (predicates (at place) (treated patient)) With it the next fault is `refused 16:21 124`.
; says: (functions (blood patient group)) With this and what is mended above the next fault is `refused 17:44 124`.
; says: (effects (set (treated ?p))) (knows (kf (treated ?p))))) With it this fault is gone.
; says: There is no `or` in a goal
(pks 1)
(domain
  (types place patient group)
  (objects (place ward) (patient ann) (group a b))
  (predicates (at ?p place) (treated ?p patient))
  (functions (blood ?p patient) - group)
  (action treat (params (?p patient)) (pre (treated ?p))
    (effects (set (treatd ?p))) (knows (kf (treated ?p)))))
(problem (goal (or (k (treated ann)) (k (at ward)))))
