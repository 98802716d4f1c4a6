; Runarsson, Yao: Stochastic ranking for constrained evolutionary optimization, 2000
; least value: 0.75
(set-logic QF_NRA)
(declare-const x Real)
(declare-const y Real)
(assert (<= (- 1) x 1))
(assert (<= (- 1) y 1))
(assert (= y (* x x)))
(minimize (+ (* x x) (* (- y 1) (- y 1))))
(check-sat)
