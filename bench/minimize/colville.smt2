; Jamil, Yang: A literature survey of benchmark functions for global optimization, 2013
; least value: 0
(set-logic QF_NRA)
(declare-const a Real)
(declare-const b Real)
(declare-const c Real)
(declare-const d Real)
(assert (<= (- 10) a 10))
(assert (<= (- 10) b 10))
(assert (<= (- 10) c 10))
(assert (<= (- 10) d 10))
(minimize (+ (* 100 (- (* a a) b) (- (* a a) b)) (* (- a 1) (- a 1)) (* (- c 1) (- c 1)) (* 90 (- (* c c) d) (- (* c c) d)) (* 10.1 (+ (* (- b 1) (- b 1)) (* (- d 1) (- d 1)))) (* 19.8 (- b 1) (- d 1))))
(check-sat)
