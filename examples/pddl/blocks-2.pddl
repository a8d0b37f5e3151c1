; Three blocks: c is on a or on b. At the end a is on b, and c on the table.
; ./pks plan 4
(define (problem blocks-2)
  (:domain blocks)
  (:objects a b c - block)
  (:init
    (on-table a)
    (on-table b)
    (clear c)
    (oneof (on c a) (on c b))
    (oneof (on c a) (clear a))
    (oneof (on c b) (clear b)))
  (:goal (and (on a b) (on-table c))))
