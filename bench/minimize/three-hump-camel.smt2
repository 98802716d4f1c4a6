; Jamil, Yang: A literature survey of benchmark functions for global optimization, 2013
; least value: 0
(set-logic QF_NRA)
(declare-const x Real)
(declare-const y Real)
(assert (<= (- 5) x 5))
(assert (<= (- 5) y 5))
(minimize (+ (* 2 x x) (* (- 1.05) x x x x) (/ (* x x x x x x) 6) (* x y) (* y y)))
(check-sat)
