; An action mends what is down, and none finds out what is.
(pks 1)
(domain (types host) (objects (host web mail dns)) (predicates (down host) (logged-in) (up-again))
  (action login (effects (set (logged-in))) (knows (kf (logged-in))))
  (action reboot (params (?h host)) (pre (k (logged-in)) (k (down ?h)))
    (effects (unset (down ?h)) (set (up-again))) (knows (kf (not (down ?h))) (kf (up-again)))))
(problem (init (kx (down web) (down mail) (down dns))) (goal (k (up-again))))
