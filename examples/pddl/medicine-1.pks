; Two illnesses, of which one stains blue.
; ./pks plan 4
; Written by tools/from-pddl from examples/pddl/medicine.pddl and examples/pddl/medicine-1.pddl, to
;   be read and changed.
(pks 1)
(domain
  (types illness colour)
  (objects (colour white blue) (illness flu pox))
  (predicates (ill illness) (tells illness colour) (stained) (stain colour) (dead))

  (action make-stain
    (pre (k (not (stained))))
    (effects (set (stained)) (when ((ill flu) (tells flu blue)) (set (stain blue)))
      (when ((ill pox) (tells pox white)) (set (stain white))))
    (knows (kf (stained)) (if ((k (ill flu)) (k (tells flu blue))) (kf (stain blue)))
      (if ((k (ill pox)) (k (tells pox white))) (kf (stain white)))))

  (action look (params (?c colour))
    (pre (k (stained)))
    (senses (sense (stain ?c)))
    (knows (kw (stain ?c))))

  ; It cures the illness for which it is made.
  (action medicate (params (?i illness))
    (effects (when ((ill ?i)) (unset (ill ?i))) (when ((not (ill ?i))) (set (dead))))
    (knows (if ((k (ill ?i))) (kf (not (ill ?i)))) (if ((kw (ill ?i)) (kw (ill ?i))) (kw (ill ?i)))
      (if ((k (not (ill ?i)))) (kf (dead))) (if ((kw (not (ill ?i))) (kw (dead))) (kw (dead))))))

(problem
  ; Unknown: (ill flu) (ill pox)
  (init
    (kf (tells flu blue)) (kf (tells pox white))
    ; All else is false.
    (lcw (tells _ _)) (kf (not (stained))) (kf (not (stain white))) (kf (not (stain blue)))
    (kf (not (dead)))
    (kx (ill flu) (ill pox)))
  (goal (k (not (ill flu))) (k (not (ill pox))) (k (not (dead)))))
