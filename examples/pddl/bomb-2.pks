; A bomb in one of three packages; the toilet is clogged at first.
; ./pks plan 6
; Written by tools/from-pddl from examples/pddl/bomb.pddl and examples/pddl/bomb-2.pddl, to be read
;   and changed.
(pks 1)
(domain
  (types package toilet)
  (objects (package p1 p2 p3) (toilet bowl))
  (predicates (in package) (defused) (clogged toilet))

  ; Listens at a package.
  (action listen (params (?p package))
    (senses (sense (in ?p)))
    (knows (kw (in ?p))))

  ; Puts a package into a toilet; that defuses what is in it, and clogs the toilet.
  (action dunk (params (?p package) (?t toilet))
    (pre (k (not (clogged ?t))))
    (effects (when ((in ?p)) (set (defused))) (set (clogged ?t)))
    (knows (if ((k (in ?p))) (kf (defused))) (if ((kw (in ?p)) (kw (defused))) (kw (defused)))
      (kf (clogged ?t))))

  (action flush (params (?t toilet))
    (pre (k (clogged ?t)))
    (effects (unset (clogged ?t)))
    (knows (kf (not (clogged ?t))))))

(problem
  ; Unknown: (in p1) (in p2) (in p3)
  (init
    (kf (clogged bowl))
    ; All else is false.
    (kf (not (defused)))
    (kx (in p1) (in p2) (in p3)))
  (goal (k (defused))))
