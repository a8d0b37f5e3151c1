; A coin lies on one of three floors; one goes between them by lift, and looks for it outside of the lift.
; Shows: many orders of actions that come to the same, each of which the search looks at once.
; ./pks plan 11
; ./pks exec 11
(pks 1)
(domain
  (types floor)
  (objects (floor f1 f2 f3))
  (predicates (next floor floor) (at floor) (inside) (coin-at floor) (have-coin))
  (action enter (effects (set (inside))) (knows (kf (inside))))
  (action leave (effects (unset (inside))) (knows (kf (not (inside)))))
  (action up (params (?f floor) (?g floor))
    (pre (k (inside)) (k (at ?f)) (k (next ?f ?g)) (k (not (= ?f ?g))))
    (effects (unset (at ?f)) (set (at ?g)))
    (knows (kf (not (at ?f))) (kf (at ?g))))
  (action down (params (?f floor) (?g floor))
    (pre (k (inside)) (k (at ?f)) (k (next ?g ?f)) (k (not (= ?f ?g))))
    (effects (unset (at ?f)) (set (at ?g)))
    (knows (kf (not (at ?f))) (kf (at ?g))))
  (action search (params (?f floor))
    (pre (k (not (inside))) (k (at ?f)))
    (senses (sense (coin-at ?f))) (knows (kw (coin-at ?f))))
  (action collect (params (?f floor))
    (pre (k (not (inside))) (k (at ?f)) (k (coin-at ?f)))
    (effects (unset (coin-at ?f)) (set (have-coin)))
    (knows (kf (not (coin-at ?f))) (kf (have-coin)))))
(problem
  (init (kf (at f1)) (kf (not (inside))) (kf (next f1 f2)) (kf (next f2 f3))
    (kx (coin-at f1) (coin-at f2) (coin-at f3)))
  (goal (k (have-coin))))
(world
  (true (at f1) (next f1 f2) (next f2 f3) (coin-at f3)))
