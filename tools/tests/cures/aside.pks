; A name is mended everywhere, also in what is set aside for a fault that has no cure.
; at 22:33
; at 20:58
; at 20:77
; at 22:25
; at 22:63
; at 23:25
; at 25:16
; at 26:36
; says: (effects (set (seen (at)))) (knows (kf (seen (at)))))) (init (kf (= (at) lobby)) (kf (door lobby east)) (kf (door lobby west))) With it this fault is gone.
; says: its value is written `(label key)`
; never: the file is accepted
; never: code 124
(pks 1)
(domain
  (types room key)
  (objects (room lobby east west) (key k1))
  (predicates (door room room) (opens key room) (seen room))
  (functions (at room) (label key room))
  (action go (params (?to room)) (pre (not-derived (k (= at ?to))) (k (door at ?to)))
    (effects (assign (at) ?to)) (knows (kf (= at ?to))))
  (action look (pre (kv at) (k (> (label k1) 2)) (k (opens k1 at)))
    (effects (set (seen at))) (knows (kf (seen at)))))
(problem
  (init (kf (= at lobby)) (kf (door lobby east)) (kf (door lobby west)))
  (goal (k (= (at) east)) (k (seen label))))
