; Jamil, Yang: A literature survey of benchmark functions for global optimization, 2013
; least value: 3
(set-logic QF_NRA)
(declare-const x Real)
(declare-const y Real)
(assert (<= (- 2) x 2))
(assert (<= (- 2) y 2))
(minimize (* (+ 1 (* (+ x y 1) (+ x y 1) (+ 19 (* (- 14) x) (* 3 x x) (* (- 14) y) (* 6 x y) (* 3 y y)))) (+ 30 (* (- (* 2 x) (* 3 y)) (- (* 2 x) (* 3 y)) (+ 18 (* (- 32) x) (* 12 x x) (* 48 y) (* (- 36) x y) (* 27 y y))))))
(check-sat)
