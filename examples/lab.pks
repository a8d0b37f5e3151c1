; A lab instrument reads a sample after it was calibrated with a standard; each reading spoils that.
; Shows: costs, parents, and aims over time: the standard once in the cell, the lid always shut.
; ./pks plan 6
; ./pks exec 6
(pks 2)
(domain
  (types thing (sample thing) (standard thing) level)
  (objects (sample blood) (standard ref) (level v1 v2 v3))
  (predicates (in-cell thing) (empty-cell) (calibrated) (lid-shut))
  (functions (reading thing level))
  (action load (params (?t thing)) (pre (k (empty-cell)))
    (effects (set (in-cell ?t)) (unset (empty-cell)))
    (knows (kf (in-cell ?t)) (kf (not (empty-cell)))))
  (action unload (params (?t thing)) (pre (k (in-cell ?t)))
    (effects (unset (in-cell ?t)) (set (empty-cell)))
    (knows (kf (not (in-cell ?t))) (kf (empty-cell))))
  (action calibrate (cost 5) (params (?r standard)) (pre (k (in-cell ?r)))
    (effects (set (calibrated))) (knows (kf (calibrated))))
  (action measure (cost 2) (params (?s sample)) (pre (k (in-cell ?s)) (k (calibrated)))
    (effects (unset (calibrated)))
    (senses (sense-value (reading ?s)))
    (knows (kv (reading ?s)) (kf (not (calibrated)))))
  (action peek (cost 1) (params (?s sample)) (pre (k (in-cell ?s)))
    (effects (unset (lid-shut)))
    (senses (sense-value (reading ?s)))
    (knows (kv (reading ?s)) (kf (not (lid-shut))))))
(problem
  (init (kf (empty-cell)) (kf (not (calibrated))) (kf (lid-shut)))
  (goal (kv (reading blood)) (k (empty-cell))
    (always (k (lid-shut))) (once (k (in-cell ref))) (at-start (k (not (calibrated))))))
(world
  (true (empty-cell) (lid-shut))
  (values ((reading blood) v2) ((reading ref) v1)))
