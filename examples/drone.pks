; A drone looks for a person where it takes off, and reports: there, or where it lands.
; It sees the person at once, and flies on for eight steps before the plan branches: the way on
; which nobody is seen is as long in any case, so nothing is gained by branching first.
; ./pks plan 11
(pks 1)
(domain
  (types field)
  (objects (field f0 f1 f2 f3 f4 f5 f6 f7 f8))
  (predicates (next field field) (person) (reported))
  (functions (here field))
  (action look (pre (k (= (here) f0)) (not-derived (kw (person))))
    (senses (sense (person))) (knows (kw (person))))
  (action fly (params (?f field) (?g field)) (pre (k (= (here) ?f)) (k (next ?f ?g)))
    (effects (assign (here) ?g)) (knows (kf (= (here) ?g))))
  (action report (pre (k (person)))
    (effects (set (reported))) (knows (kf (reported))))
  (action report-nobody (pre (k (not (person))) (k (= (here) f8)))
    (effects (set (reported))) (knows (kf (reported)))))
(problem
  (init (kf (= (here) f0))
    (kf (next f0 f1)) (kf (next f1 f2)) (kf (next f2 f3)) (kf (next f3 f4))
    (kf (next f4 f5)) (kf (next f5 f6)) (kf (next f6 f7)) (kf (next f7 f8)))
  (goal (k (reported))))
