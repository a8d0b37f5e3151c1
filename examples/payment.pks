; A web agent orders a book: look up the price, transfer exactly that sum, order.
; Shows: run-time values with arguments of their own, and equal values without knowing which.
; ./pks plan 3
; ./pks exec 3
(pks 1)
(domain
  (types shop sum item)
  (objects (shop north south) (sum s1 s2 s3 s4 s5 s6 s7 s8) (item book))
  (predicates (ordered item))
  (functions (price shop item sum) (escrow shop sum))
  (action look-up (params (?s shop) (?i item))
    (senses (sense-value (price ?s ?i))) (knows (kv (price ?s ?i))))
  (action transfer (params (?s shop) (?x sum))
    (effects (assign (escrow ?s) ?x)) (knows (kf (= (escrow ?s) ?x))))
  (action order (params (?s shop) (?i item))
    (pre (k (= (escrow ?s) (price ?s ?i))))
    (effects (set (ordered ?i))) (knows (kf (ordered ?i)))))
(problem (goal (k (ordered book))))
(world (values ((price north book) s7) ((price south book) s2)
  ((escrow north) s1) ((escrow south) s1)))
