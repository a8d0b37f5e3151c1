; A look at a panel finds all alarms of a room that ring; `knows` tells those of motion, and the goal asks for smoke.
(pks 1)
(domain
  (types room kind)
  (objects (room hall attic) (kind motion smoke))
  (predicates (ringing room kind))
  (action scan (params (?r room))
    (senses (sense-all (ringing ?r _))) (knows (kw (ringing ?r motion)))))
(problem
  (goal (kw (ringing hall smoke))))
