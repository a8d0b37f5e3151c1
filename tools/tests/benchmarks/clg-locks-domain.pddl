(define (domain locks)
  (:requirements :typing)
  (:types place shape key)
  (:predicates (conn ?x ?y - place) (key-shape ?k - key ?s - shape) (lock-shape ?x - place ?s - shape)
               (at ?k - key ?x - place) (at-robot ?x - place) (locked ?x - place) (open ?x - place)
               (carrying ?k - key) (arm-empty))
  (:action unlock
    :parameters (?curpos ?lockpos - place ?key - key ?shape - shape)
    :precondition (and (conn ?curpos ?lockpos) (key-shape ?key ?shape) (lock-shape ?lockpos ?shape)
                       (at-robot ?curpos) (locked ?lockpos) (carrying ?key))
    :effect (and (open ?lockpos) (not (locked ?lockpos))))
  (:action move
    :parameters (?curpos ?nextpos - place)
    :precondition (and (at-robot ?curpos) (conn ?curpos ?nextpos) (open ?nextpos))
    :effect (and (at-robot ?nextpos) (not (at-robot ?curpos))))
  (:action pickup
    :parameters (?curpos - place ?key - key)
    :precondition (and (at-robot ?curpos) (at ?key ?curpos) (arm-empty))
    :effect (and (carrying ?key) (not (at ?key ?curpos)) (not (arm-empty))))
  (:action putdown
    :parameters (?curpos - place ?key - key)
    :precondition (and (at-robot ?curpos) (carrying ?key))
    :effect (and (arm-empty) (at ?key ?curpos) (not (carrying ?key))))
  (:action sense-shape
    :parameters (?curpos ?lockpos - place ?shape - shape)
    :precondition (and (at-robot ?curpos) (conn ?curpos ?lockpos))
    :observe (lock-shape ?lockpos ?shape)))
