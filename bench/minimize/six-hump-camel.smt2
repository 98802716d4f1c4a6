; Jamil, Yang: A literature survey of benchmark functions for global optimization, 2013
; least value: -1.03162845348988
(set-logic QF_NRA)
(declare-const x Real)
(declare-const y Real)
(assert (<= (- 3) x 3))
(assert (<= (- 2) y 2))
(minimize (+ (* (+ 4 (* (- 2.1) x x) (/ (* x x x x) 3)) x x) (* x y) (* (- (* 4 y y) 4) y y)))
(check-sat)
