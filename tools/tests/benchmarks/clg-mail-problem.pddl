(define (problem mail-1)
  (:domain mail)
  (:objects ann - person bill invoice - letter post-room office lab - room)
  (:init
    (at robby post-room)
    (at bill post-room) (at invoice post-room)
    (addressed bill ann) (addressed invoice ann)
    (oneof (at ann office) (at ann lab)))
  (:goal (forall (?l - letter) (delivered ?l))))
