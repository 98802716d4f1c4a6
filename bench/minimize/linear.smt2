; Hillier, Lieberman: Introduction to operations research, the Wyndor Glass example
; least value: -36
(set-logic QF_NRA)
(declare-const x Real)
(declare-const y Real)
(assert (<= 0 x 4))
(assert (<= 0 y 100))
(assert (<= (* 2 y) 12))
(assert (<= (+ (* 3 x) (* 2 y)) 18))
(minimize (- (+ (* 3 x) (* 5 y))))
(check-sat)
