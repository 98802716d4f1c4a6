; Liang, Runarsson, Mezura-Montes, Clerc, Suganthan, Coello Coello, Deb: Problem definitions and evaluation criteria for the CEC 2006 special session on
; constrained real-parameter optimization, 2006
; least value: -5.50801327159536
(set-logic QF_NRA)
(declare-const x Real)
(declare-const y Real)
(assert (<= 0 x 3))
(assert (<= 0 y 4))
(assert (<= (+ (* (- 2) x x x x) (* 8 x x x) (* (- 8) x x) y) 2))
(assert (<= (+ (* (- 4) x x x x) (* 32 x x x) (* (- 88) x x) (* 96 x) y) 36))
(minimize (- (- x) y))
(check-sat)
