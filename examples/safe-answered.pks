; The safe, and behind the line that is a full stop alone the answer of who reads the paper.
; Shows: a dialogue. The number that is answered is the one that is dialled.
; ./pks agent 2
(pks 1)
(domain
  (types num)
  (objects (num c1 c2 c3 c4 c5))
  (predicates (open))
  (functions (combo num))
  (action read (senses (sense-value (combo))) (knows (kv (combo))))
  (action dial (params (?x num))
    (effects (when ((= ?x (combo))) (set (open))))
    (knows (if ((k (= ?x (combo)))) (kf (open))))))
(problem (goal (k (open))))
.
c3
