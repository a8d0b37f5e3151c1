; Three blocks: c is on a or on b. At the end a is on b, and c on the table.
; ./pks plan 4
; Written by tools/from-pddl from examples/pddl/blocks.pddl and examples/pddl/blocks-2.pddl, to be
;   read and changed.
(pks 1)
(domain
  (types block)
  (objects (block a b c))
  (predicates (on block block) (on-table block) (clear block))

  (action look-on (params (?x block) (?y block))
    (pre (k (not (= ?x ?y))))
    (senses (sense (on ?x ?y)))
    (knows (kw (on ?x ?y))))

  (action look-clear (params (?x block))
    (senses (sense (clear ?x)))
    (knows (kw (clear ?x))))

  (action put-down (params (?x block) (?y block))
    (pre (k (clear ?x)) (k (on ?x ?y)) (k (not (= ?x ?y))))
    (effects (unset (on ?x ?y)) (set (on-table ?x)) (set (clear ?y)))
    (knows (kf (not (on ?x ?y))) (kf (on-table ?x)) (kf (clear ?y))))

  (action put-on (params (?x block) (?y block))
    (pre (k (clear ?x)) (k (clear ?y)) (k (on-table ?x)) (k (not (= ?x ?y))))
    (effects (unset (on-table ?x)) (unset (clear ?y)) (set (on ?x ?y)))
    (knows (kf (not (on-table ?x))) (kf (not (clear ?y))) (kf (on ?x ?y)))))

(problem
  ; Unknown: (on c a) (on c b) (clear a) (clear b)
  (init
    (kf (on-table a)) (kf (on-table b))
    (kf (clear c))
    ; All else is false.
    (kf (not (on a a))) (kf (not (on a b))) (kf (not (on a c))) (kf (not (on b a)))
    (kf (not (on b b))) (kf (not (on b c))) (kf (not (on c c))) (kf (not (on-table c)))
    (kx (on c a) (on c b))
    (kx (on c a) (clear a))
    (kx (on c b) (clear b)))
  (goal (k (on a b)) (k (on-table c))))
