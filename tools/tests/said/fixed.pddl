(define (domain fixed)
  (:requirements :adl)
  (:types sort colour)
  (:predicates (is ?s - sort) (tells ?s - sort ?c - colour) (shows ?c - colour))
  (:action stain
    :effect (forall (?s - sort ?c - colour) (when (and (is ?s) (tells ?s ?c)) (shows ?c)))))
(define (problem fixed-1)
  (:domain fixed)
  (:objects flu pox - sort red blue - colour)
  (:init (is flu) (tells flu red) (tells pox blue) (unknown (is pox)) (unknown (tells pox red)))
  (:goal (shows red)))

; writes: (effects (when ((is flu) (tells flu red)) (set (shows red))) (when ((is pox) (tells pox red)) (set (shows red))) (when ((is pox) (tells pox blue)) (set (shows blue))))
; writes: (kf (not (tells flu blue)))
; plans: 1
