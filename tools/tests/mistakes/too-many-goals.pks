; too many goals
; says: code 208
; says: 16 queries of a goal
(pks 1)
(domain (types t) (objects (t o0 o1 o2 o3 o4 o5 o6 o7 o8 o9 o10 o11 o12 o13 o14 o15 o16 o17 o18 o19)) (predicates (p t)))
(problem (goal (k (p o0)) (k (p o1)) (k (p o2)) (k (p o3)) (k (p o4)) (k (p o5)) (k (p o6)) (k (p o7)) (k (p o8)) (k (p o9)) (k (p o10)) (k (p o11)) (k (p o12)) (k (p o13)) (k (p o14)) (k (p o15)) (k (p o16))))
