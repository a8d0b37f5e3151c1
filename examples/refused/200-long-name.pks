; A name is too long.
; ./pks check
(pks 1)
(domain (predicates (ppppppppppppppppppppppppppppppppppppppppppppppppppppppppppppppppp)))
(problem (goal (k (p))))
