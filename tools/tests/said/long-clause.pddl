(define (domain switches)
  (:requirements :strips)
  (:predicates (works ?s) (lit))
  (:action try
    :parameters (?s)
    :observe (works ?s))
  (:action press
    :parameters (?s)
    :precondition (works ?s)
    :effect (lit)))
(define (problem switches-3)
  (:domain switches)
  (:objects a b c)
  (:init (or (works a) (works b) (works c)))
  (:goal (lit)))

; writes: (kx (works a) (counts-1) (counts-3))
; writes: (kx (not (works b)) (counts-1) (beside-2))
; writes: (kx (not (works c)) (counts-3) (beside-4))
; plans: 5
; plans not: 4
