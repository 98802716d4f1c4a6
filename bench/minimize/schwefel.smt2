; Munoz, Narkawicz: Formalization of Bernstein polynomials and applications to global optimization, 2013
; least value: 0
(set-logic QF_NRA)
(declare-const x1 Real)
(declare-const x2 Real)
(declare-const x3 Real)
(assert (<= (- 10) x1 10))
(assert (<= (- 10) x2 10))
(assert (<= (- 10) x3 10))
(minimize (+ (* (- x1 (* x2 x2)) (- x1 (* x2 x2))) (* (- x2 1) (- x2 1)) (* (- x1 (* x3 x3)) (- x1 (* x3 x3))) (* (- x3 1) (- x3 1))))
(check-sat)
