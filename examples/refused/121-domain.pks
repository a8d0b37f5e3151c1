; The second form isn't the domain.
; ./pks check
(pks 1)
(define (domain d))
(problem (goal (k (p))))
