(define (domain clauses)
  (:requirements :strips)
  (:predicates (p ?x) (q ?x) (r ?x) (s ?x))
  (:action look
    :parameters (?x)
    :observe (p ?x))
  (:action act
    :parameters (?x)
    :precondition (p ?x)
    :effect (s ?x)))
(define (problem clauses-1)
  (:domain clauses)
  (:objects a b c d)
  (:init
    (and (q d) (s b) (r d))
    (or (p a) (p b))
    (or (q a) (q b) (q c))
    (or (not (q a)) (not (q b)))
    (or (not (q b)) (not (q c)))
    (or (not (q a)) (not (q c)))
    (or (not (r a)) (r b))
    (oneof (s d)))
  (:goal (and (knows-whether (p a)) (s d))))

; writes: ; (or (p a) (p b)); (both-1) is true where both are
; writes: (kx (not (p a)) (not (p b)) (both-1))
; writes: (kx (q a) (q b) (q c))
; writes: (kx (r a) (not (r b)) (both-2))
; writes: (kf (not (p c)))
; writes: (kf (q d))
; writes: (kf (not (r c)))
; writes: (predicates (p object) (q object) (r object) (s object) (both-1) (both-2))
; plans: 2
