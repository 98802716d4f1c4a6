; Jamil, Yang: A literature survey of benchmark functions for global optimization, 2013
; least value: 0
(set-logic QF_NRA)
(declare-const x1 Real)
(declare-const x2 Real)
(declare-const x3 Real)
(declare-const x4 Real)
(assert (<= (- 5) x1 10))
(assert (<= (- 5) x2 10))
(assert (<= (- 5) x3 10))
(assert (<= (- 5) x4 10))
(minimize (+ (* 100 (- x2 (* x1 x1)) (- x2 (* x1 x1))) (* (- x1 1) (- x1 1)) (* 100 (- x3 (* x2 x2)) (- x3 (* x2 x2))) (* (- x2 1) (- x2 1)) (* 100 (- x4 (* x3 x3)) (- x4 (* x3 x3))) (* (- x3 1) (- x3 1))))
(check-sat)
