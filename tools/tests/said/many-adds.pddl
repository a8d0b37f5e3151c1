(define (domain many-adds)
  (:requirements :conditional-effects)
  (:predicates (p) (s1) (s2) (s3) (s4) (s5) (s6) (s7) (s8) (s9))
  (:action act
    :effect (and (when (p) (s1)) (when (p) (s2)) (when (p) (s3)) (when (p) (s4)) (when (p) (s5)) (when (p) (s6)) (when (p) (s7)) (when (p) (s8)) (when (p) (s9)))))
(define (problem many-adds-1)
  (:domain many-adds)
  (:init (p))
  (:goal (s9)))

; writes: (if ((kw (p)) (kw (s7))) (kw (s7))) (if ((k (p))) (kf (s8))) (if ((k (p))) (kf (s9))))
; writes: ; More than 16 adds, so this is left out: (if ((kw (p)) (kw (s8))) (kw (s8)))
; writes: ; More than 16 adds, so this is left out: (if ((kw (p)) (kw (s9))) (kw (s9)))
; plans: 1
