; A package lies at one of two airports, and is brought to the other by a plane.
; ./pks plan 5
; Written by tools/from-pddl from examples/pddl/logistics.pddl and examples/pddl/logistics-2.pddl,
;   to be read and changed.
(pks 2)
(domain
  (types place vehicle package (airport place) (truck vehicle) (plane vehicle))
  (objects (airport north south) (plane p) (package box))
  (predicates (at vehicle place) (lies package place) (in package vehicle))

  ; Who is at a place with a vehicle sees whether a package lies there.
  (action look (cost 1) (params (?p package) (?v vehicle) (?x place))
    (pre (k (at ?v ?x)))
    (senses (sense (lies ?p ?x)))
    (knows (kw (lies ?p ?x))))

  (action load (cost 1) (params (?p package) (?v vehicle) (?x place))
    (pre (k (at ?v ?x)) (k (lies ?p ?x)))
    (effects (unset (lies ?p ?x)) (set (in ?p ?v)))
    (knows (kf (not (lies ?p ?x))) (kf (in ?p ?v))))

  (action unload (cost 1) (params (?p package) (?v vehicle) (?x place))
    (pre (k (at ?v ?x)) (k (in ?p ?v)))
    (effects (unset (in ?p ?v)) (set (lies ?p ?x)))
    (knows (kf (not (in ?p ?v))) (kf (lies ?p ?x))))

  (action drive (cost 2) (params (?t truck) (?from place) (?to place))
    (pre (k (at ?t ?from)) (k (not (= ?from ?to))))
    (effects (unset (at ?t ?from)) (set (at ?t ?to)))
    (knows (kf (not (at ?t ?from))) (kf (at ?t ?to))))

  (action fly (cost 5) (params (?p plane) (?from airport) (?to airport))
    (pre (k (at ?p ?from)) (k (not (= ?from ?to))))
    (effects (unset (at ?p ?from)) (set (at ?p ?to)))
    (knows (kf (not (at ?p ?from))) (kf (at ?p ?to)))))

(problem
  ; Unknown: (lies box north) (lies box south)
  (init
    (kf (at p north))
    ; All else is false.
    (kf (not (at p south))) (kf (not (in box p)))
    (kx (lies box north) (lies box south)))
  (goal (k (lies box south))))
