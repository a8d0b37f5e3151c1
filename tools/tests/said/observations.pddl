(define (domain observations)
  (:requirements :strips)
  (:constants a b)
  (:predicates (wet) (p ?x))
  (:action touch
    :precondition (knows-whether (wet))
    :effect (and (knows-whether (wet)) (forall (?x) (knows-whether (p ?x)))))
  (:action smell
    :sense (or (p a) (wet)))
  (:action look
    :observe (and (wet) (p b)))
  (:action hear
    :observe ((wet) (p b))))
(define (problem observations-1)
  (:domain observations)
  (:init (unknown (wet)) (unknown (p a)) (unknown (p b)))
  (:goal (knows-whether (and (wet) (p b)))))

; writes: (pre (kw (wet)))
; writes: (senses (sense (wet)) (sense (p a)) (sense (p b)))
; writes: (knows (kw (wet)) (kw (p a)) (kw (p b)))
; writes: (senses (sense (not (p a)) (not (wet))))
; writes: (senses (sense (wet) (p b)))
; writes: (goal (kw (wet) (p b)))
; plans: 1
