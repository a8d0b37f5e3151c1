; The paper is in one of two directories below the current one.
; ./pks plan 6
; Written by tools/from-pddl from examples/pddl/unix.pddl and examples/pddl/unix-1.pddl, to be read
;   and changed.
; Names that were changed:
;   object Paper.tex is paper-tex
(pks 1)
(domain
  (types dir file)
  (objects (dir home docs old) (file paper-tex))
  (predicates (sub dir dir) (current dir) (in file dir))

  (action ls (params (?d dir) (?f file))
    (pre (k (current ?d)))
    (senses (sense (in ?f ?d)))
    (knows (kw (in ?f ?d))))

  (action cd-down (params (?from dir) (?to dir))
    (pre (k (current ?from)) (k (sub ?to ?from)) (k (not (= ?from ?to))))
    (effects (unset (current ?from)) (set (current ?to)))
    (knows (kf (not (current ?from))) (kf (current ?to))))

  (action cd-up (params (?from dir) (?to dir))
    (pre (k (current ?from)) (k (sub ?from ?to)) (k (not (= ?from ?to))))
    (effects (unset (current ?from)) (set (current ?to)))
    (knows (kf (not (current ?from))) (kf (current ?to))))

  (action cp (params (?f file) (?from dir) (?to dir))
    (pre (k (current ?from)) (k (in ?f ?from)))
    (effects (set (in ?f ?to)))
    (knows (kf (in ?f ?to)))))

(problem
  ; Unknown: (in paper-tex docs) (in paper-tex old)
  (init
    (kf (current home))
    (kf (sub docs home)) (kf (sub old home))
    ; All else is false.
    (lcw (sub _ _)) (kf (not (current docs))) (kf (not (current old)))
    (kf (not (in paper-tex home)))
    (kx (in paper-tex docs) (in paper-tex old)))
  (goal (k (in paper-tex home))))
