; The paper is in one of two directories below the current one.
; ./pks plan 6
(define (problem unix-1)
  (:domain unix)
  (:objects home docs old - dir Paper.tex - file)
  (:init
    (current home)
    (sub docs home)
    (sub old home)
    (oneof (in Paper.tex docs) (in Paper.tex old)))
  (:goal (in Paper.tex home)))
