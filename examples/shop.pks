; Two shops ask a low, middle or high price for a book: buy where the other asks no less.
; Shows: cases within cases. Comparing two values needs a table of facts, and so each case alone.
; ./pks plan 5
(pks 1)
(domain
  (types shop price)
  (objects (shop north south) (price low mid high))
  (predicates (no-more price price) (bought))
  (functions (asks shop price))
  (action look-up (params (?s shop)) (pre (not-derived (kv (asks ?s))))
    (senses (sense-value (asks ?s))) (knows (kv (asks ?s))))
  (action buy (params (?s shop) (?t shop))
    (pre (k (not (= ?s ?t))) (k (no-more (asks ?s) (asks ?t))))
    (effects (set (bought))) (knows (kf (bought)))))
(problem
  (init (kf (no-more low low)) (kf (no-more mid mid)) (kf (no-more high high))
    (kf (no-more low mid)) (kf (no-more low high)) (kf (no-more mid high)))
  (goal (k (bought))))
