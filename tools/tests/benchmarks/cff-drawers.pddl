(define (domain drawers)
  (:requirements :strips :typing)
  (:types room drawer key door)
  (:predicates (in-room ?r - room) (drawer-in ?d - drawer ?r - room) (key-in ?k - key ?d - drawer)
               (ajar ?d - drawer) (have ?k - key) (opens ?k - key ?o - door) (locked ?o - door)
               (connects ?o - door ?a ?b - room))
  (:action pull
    :parameters (?d - drawer ?r - room)
    :precondition (and (in-room ?r) (drawer-in ?d ?r) (not (ajar ?d)))
    :effect (ajar ?d))
  (:action look-into
    :parameters (?k - key ?d - drawer ?r - room)
    :precondition (and (in-room ?r) (drawer-in ?d ?r) (ajar ?d))
    :observe (key-in ?k ?d))
  (:action take
    :parameters (?k - key ?d - drawer ?r - room)
    :precondition (and (in-room ?r) (drawer-in ?d ?r) (ajar ?d) (key-in ?k ?d))
    :effect (and (have ?k) (not (key-in ?k ?d))))
  (:action unlock
    :parameters (?k - key ?o - door ?a ?b - room)
    :precondition (and (have ?k) (opens ?k ?o) (connects ?o ?a ?b) (in-room ?a))
    :effect (not (locked ?o)))
  (:action walk
    :parameters (?o - door ?a ?b - room)
    :precondition (and (in-room ?a) (connects ?o ?a ?b) (not (locked ?o)))
    :effect (and (in-room ?b) (not (in-room ?a)))))

(define (problem drawers-1)
  (:domain drawers)
  (:objects kitchen vault - room upper lower - drawer brass - key steel-door - door)
  (:init (and
    (in-room kitchen)
    (drawer-in upper kitchen) (drawer-in lower kitchen)
    (opens brass steel-door)
    (connects steel-door kitchen vault)
    (connects steel-door vault kitchen)
    (locked steel-door)
    (oneof (key-in brass upper) (key-in brass lower))))
  (:goal (in-room vault)))
