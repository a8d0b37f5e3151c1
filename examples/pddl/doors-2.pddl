; Two rows of two doors; in each row one is open.
; ./pks plan 6
(define (problem doors-2)
  (:domain doors)
  (:objects hall court garden - room d1 d2 e1 e2 - door)
  (:init
    (at hall)
    (joins d1 hall court)
    (joins d2 hall court)
    (joins e1 court garden)
    (joins e2 court garden)
    (oneof (open d1) (open d2))
    (oneof (open e1) (open e2)))
  (:goal (at garden)))
