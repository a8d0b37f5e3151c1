; Empty the backup directory and copy a paper into it; know that nothing else is there.
; Shows: local closed worlds. All files of docs are known at the start; clearing makes a region.
; ./pks plan 3
; ./pks exec 3
(pks 1)
(domain
  (types dir file)
  (objects (dir docs backup) (file paper core notes))
  (predicates (in file dir) (writable dir))
  (action rm-all (params (?d dir)) (pre (k (writable ?d)))
    (effects (clear (in _ ?d))) (knows (lcw (in _ ?d))))
  (action chmod (params (?d dir)) (effects (set (writable ?d))) (knows (kf (writable ?d))))
  (action cp (params (?f file) (?s dir) (?t dir))
    (pre (k (in ?f ?s)) (k (writable ?t)))
    (effects (set (in ?f ?t))) (knows (kf (in ?f ?t)))))
(problem
  (init (kf (in paper docs)) (kf (in notes docs)) (lcw (in _ docs)))
  (goal (k (in paper backup)) (k (not (in core backup))) (k (not (in core docs)))))
(world (true (in paper docs) (in notes docs) (in core backup)))
