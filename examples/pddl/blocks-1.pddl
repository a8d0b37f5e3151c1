; Two blocks: either both are on the table, or b is on a. At the end a is on b.
; ./pks plan 4
(define (problem blocks-1)
  (:domain blocks)
  (:objects a b - block)
  (:init
    (on-table a)
    (clear b)
    (oneof (on b a) (on-table b))
    (oneof (on b a) (clear a)))
  (:goal (on a b)))
