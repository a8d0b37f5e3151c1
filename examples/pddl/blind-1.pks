; A bomb in one of two packages. PDDL has the plan dunk p1, flush, dunk p2.
; ./pks plan 5
; Written by tools/from-pddl from examples/pddl/blind.pddl and examples/pddl/blind-1.pddl, to be
;   read and changed.
(pks 1)
(domain
  (types package)
  (objects (package p1 p2))
  (predicates (in package) (defused) (clogged))

  (action dunk (params (?p package))
    (pre (k (not (clogged))))
    (effects (when ((in ?p)) (set (defused))) (set (clogged)))
    (knows (if ((k (in ?p))) (kf (defused))) (if ((kw (in ?p)) (kw (defused))) (kw (defused)))
      (kf (clogged))))

  (action flush
    (effects (unset (clogged)))
    (knows (kf (not (clogged))))))

(problem
  ; Unknown: (in p1) (in p2)
  (init
    ; All else is false.
    (kf (not (defused))) (kf (not (clogged)))
    (kx (in p1) (in p2)))
  (goal (k (defused))))
