; Jamil, Yang: A literature survey of benchmark functions for global optimization, 2013
; least value: 0
(set-logic QF_NRA)
(declare-const x Real)
(declare-const y Real)
(assert (<= (- 10) x 10))
(assert (<= (- 10) y 10))
(minimize (+ (* (- (+ x (* 2 y)) 7) (- (+ x (* 2 y)) 7)) (* (- (+ (* 2 x) y) 5) (- (+ (* 2 x) y) 5))))
(check-sat)
