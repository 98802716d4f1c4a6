; Jamil, Yang: A literature survey of benchmark functions for global optimization, 2013
; least value: -117.49849711131424
(set-logic QF_NRA)
(declare-const x1 Real)
(declare-const x2 Real)
(declare-const x3 Real)
(assert (<= (- 5) x1 5))
(assert (<= (- 5) x2 5))
(assert (<= (- 5) x3 5))
(minimize (/ (+ (* x1 x1 x1 x1) (* (- 16) x1 x1) (* 5 x1) (* x2 x2 x2 x2) (* (- 16) x2 x2) (* 5 x2) (* x3 x3 x3 x3) (* (- 16) x3 x3) (* 5 x3)) 2))
(check-sat)
