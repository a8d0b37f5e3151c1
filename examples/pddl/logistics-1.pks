; A package lies in one of two shops, and is brought to the depot by a truck.
; ./pks plan 6
; Written by tools/from-pddl from examples/pddl/logistics.pddl and examples/pddl/logistics-1.pddl,
;   to be read and changed.
(pks 2)
(domain
  (types place vehicle package (airport place) (truck vehicle) (plane vehicle))
  (objects (place depot shop-a shop-b) (truck t) (package box))
  (predicates (at vehicle place) (lies package place) (in package vehicle))

  ; Who is at a place with a vehicle sees whether a package lies there.
  (action look (cost 1) (params (?p package) (?v vehicle) (?x place))
    (pre (k (at ?v ?x)))
    (senses (sense (lies ?p ?x)))
    (knows (kw (lies ?p ?x))))

  (action load (cost 1) (params (?p package) (?v vehicle) (?x place))
    (pre (k (at ?v ?x)) (k (lies ?p ?x)))
    (effects (unset (lies ?p ?x)) (set (in ?p ?v)))
    (knows (kf (not (lies ?p ?x))) (kf (in ?p ?v))))

  (action unload (cost 1) (params (?p package) (?v vehicle) (?x place))
    (pre (k (at ?v ?x)) (k (in ?p ?v)))
    (effects (unset (in ?p ?v)) (set (lies ?p ?x)))
    (knows (kf (not (in ?p ?v))) (kf (lies ?p ?x))))

  (action drive (cost 2) (params (?t truck) (?from place) (?to place))
    (pre (k (at ?t ?from)) (k (not (= ?from ?to))))
    (effects (unset (at ?t ?from)) (set (at ?t ?to)))
    (knows (kf (not (at ?t ?from))) (kf (at ?t ?to))))

  (action fly (cost 5) (params (?p plane) (?from airport) (?to airport))
    (pre (k (at ?p ?from)) (k (not (= ?from ?to))))
    (effects (unset (at ?p ?from)) (set (at ?p ?to)))
    (knows (kf (not (at ?p ?from))) (kf (at ?p ?to)))))

(problem
  ; Unknown: (lies box shop-a) (lies box shop-b)
  (init
    (kf (at t shop-a))
    ; All else is false.
    (kf (not (at t depot))) (kf (not (at t shop-b))) (kf (not (lies box depot)))
    (kf (not (in box t)))
    (kx (lies box shop-a) (lies box shop-b)))
  (goal (k (lies box depot))))
