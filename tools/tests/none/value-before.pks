; A tester shows a code for each fault of a lamp, and nothing says what it showed before.
(pks 1)
(domain
  (types part code)
  (objects (part bulb fuse cable) (code zero low high))
  (predicates (lit))
  (functions (fault part) (shows code))
  (action test
    (effects
      (when ((= (fault) bulb)) (assign (shows) low))
      (when ((= (fault) fuse)) (assign (shows) high))
      (when ((= (fault) cable)) (assign (shows) zero)))
    (senses (sense-value (shows)))
    (knows (kv (shows))))
  (action replace (params (?p part)) (pre (k (= (fault) ?p))) (effects (set (lit))) (knows (kf (lit)))))
(problem (goal (k (lit))))
