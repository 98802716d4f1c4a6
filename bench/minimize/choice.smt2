; a choice of two boxes
; least value: -4
(set-logic QF_NRA)
(declare-const x Real)
(declare-const y Real)
(assert (<= (- 2) x 2))
(assert (<= (- 2) y 2))
(declare-const p Bool)
(assert (ite p (and (<= 1 x) (<= (+ x y) 2)) (and (<= x (- 1)) (<= y 0))))
(minimize (+ x (* 2 y) (* x x)))
(check-sat)
