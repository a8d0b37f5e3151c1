; A look at a panel finds all alarms of a room that ring, but `knows` tells none of them.
(pks 1)
(domain
  (types room kind)
  (objects (room hall attic) (kind motion smoke))
  (predicates (ringing room kind))
  (action scan (params (?r room))
    (senses (sense-all (ringing ?r _)))))
(problem
  (goal (kw (ringing hall smoke)) (kw (ringing hall motion))))
