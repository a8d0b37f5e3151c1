(define (domain NAMES)
  (:requirements :strips :typing :equality)
  (:types Room)
  (:predicates (AT ?r - Room) (free+ ?r - ROOM) (free* ?r - room))
  (:action Go!
    :parameters (?From ?to.room - room)
    :precondition (and (at ?from) (not (= ?FROM ?to.room)) (FREE+ ?to.room))
    :effect (and (not (At ?from)) (at ?to.room))))
(define (problem names-1)
  (:domain names)
  (:objects 2nd-Room hall - room)
  (:init (AT 2ND-ROOM) (free+ Hall))
  (:goal (at HALL)))

; writes: predicate AT is at
; writes: predicate free+ is free
; writes: predicate free* is free-2
; writes: object 2nd-Room is x2nd-room
; writes: action Go! is go
; writes: parameter ?to.room is ?to-room
; writes: (action go (params (?from room) (?to-room room))
; writes: (kf (at x2nd-room))
