; Runarsson, Yao: Stochastic ranking for constrained evolutionary optimization, 2000
; least value: -6961.81387558
(set-logic QF_NRA)
(declare-const x1 Real)
(declare-const x2 Real)
(assert (<= 13 x1 100))
(assert (<= 0 x2 100))
(assert (>= (+ (* (- x1 5) (- x1 5)) (* (- x2 5) (- x2 5))) 100))
(assert (<= (+ (* (- x1 6) (- x1 6)) (* (- x2 5) (- x2 5))) 82.81))
(minimize (+ (* (- x1 10) (- x1 10) (- x1 10)) (* (- x2 20) (- x2 20) (- x2 20))))
(check-sat)
