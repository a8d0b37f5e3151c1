; The paper is in one of two directories, one below the other; a copy shall be at the top.
; ./pks plan 7
(define (problem unix-2)
  (:domain unix)
  (:objects home docs old - dir Paper.tex - file)
  (:init
    (current home)
    (sub docs home)
    (sub old docs)
    (oneof (in Paper.tex docs) (in Paper.tex old)))
  (:goal (and (in Paper.tex home) (current home))))
