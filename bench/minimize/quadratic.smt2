; Nocedal, Wright: Numerical optimization, example 16.4
; least value: 0.8
(set-logic QF_NRA)
(declare-const x Real)
(declare-const y Real)
(assert (<= 0 x 10))
(assert (<= 0 y 10))
(assert (>= (+ x (* (- 2) y) 2) 0))
(assert (>= (+ (- x) (* (- 2) y) 6) 0))
(assert (>= (+ (- x) (* 2 y) 2) 0))
(minimize (+ (* (- x 1) (- x 1)) (* (- y 2.5) (- y 2.5))))
(check-sat)
