; Jamil, Yang: A literature survey of benchmark functions for global optimization, 2013
; least value: 0
(set-logic QF_NRA)
(declare-const x Real)
(declare-const y Real)
(assert (<= (- 10) x 10))
(assert (<= (- 10) y 10))
(minimize (- (* 0.26 (+ (* x x) (* y y))) (* 0.48 x y)))
(check-sat)
