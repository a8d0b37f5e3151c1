(define (domain letters)
  (:requirements :typing :fluents)
  (:types letter room)
  (:functions (place ?l - letter) - room (here) - room)
  (:action drop :parameters (?l - letter) :effect (assign (place ?l) (here)))
  (:action move :parameters (?l - letter ?m - letter) :effect (assign (place ?l) (place ?m)))
  (:action come :parameters (?l - letter) :effect (assign (here) (place ?l)))
 (:action go :parameters (?r - room) :effect (assign (here) ?r)))
(define (problem letters-1)
  (:domain letters)
  (:objects l - letter r1 r2 - room)
  (:init (= (here) r1))
  (:goal (= (place l) (here))))

; writes: (functions (place letter room) (here room))
; writes: ; That the two of (assign (place ?l) (here)) are equal isn't known afterwards
; writes: No order of the functions suits all assignments
