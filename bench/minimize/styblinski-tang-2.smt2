; Jamil, Yang: A literature survey of benchmark functions for global optimization, 2013
; least value: -78.33233140754282
(set-logic QF_NRA)
(declare-const x1 Real)
(declare-const x2 Real)
(assert (<= (- 5) x1 5))
(assert (<= (- 5) x2 5))
(minimize (/ (+ (* x1 x1 x1 x1) (* (- 16) x1 x1) (* 5 x1) (* x2 x2 x2 x2) (* (- 16) x2 x2) (* 5 x2)) 2))
(check-sat)
