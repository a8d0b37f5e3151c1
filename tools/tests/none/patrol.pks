; A patrol must know of each room whether its window was closed when the round began, and leave all
; things as found: it has to switch the light on to see, and off again where it was off. The door is
; never open.
(pks 2)
(domain
  (types room)
  (objects (room hall office vault))
  (predicates (at room) (closed room) (light room) (door-open))
  (action go (params (?a room) (?b room))
    (pre (k (at ?a)) (k (not (= ?a ?b))))
    (effects (unset (at ?a)) (set (at ?b)))
    (knows (kf (not (at ?a))) (kf (at ?b))))
  (action see-light (params (?r room))
    (pre (k (at ?r)) (not-derived (kw (light ?r))))
    (senses (sense (light ?r))) (knows (kw (light ?r))))
  (action on (params (?r room))
    (pre (k (at ?r)) (not-derived (k (light ?r))))
    (effects (set (light ?r))) (knows (kf (light ?r))))
  (action off (params (?r room))
    (pre (k (at ?r)) (not-derived (k (not (light ?r)))))
    (effects (unset (light ?r))) (knows (kf (not (light ?r)))))
  (action look (params (?r room))
    (pre (k (at ?r)) (k (light ?r)) (not-derived (kw (closed ?r))))
    (senses (sense (closed ?r))) (knows (kw (closed ?r)))))
(problem
  (init (kf (at hall)) (kf (light hall)) (kf (not (door-open))))
  (goal
    (at-start (kw (closed office))) (at-start (kw (closed vault)))
    (always (k (not (door-open))))
    (at-start (kw (light office)))
    (k (at hall))))
(world (true (at hall) (light hall) (closed office)))
