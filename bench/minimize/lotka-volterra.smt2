; Munoz, Narkawicz: Formalization of Bernstein polynomials and applications to global optimization, 2013
; least value: -20.8
(set-logic QF_NRA)
(declare-const x1 Real)
(declare-const x2 Real)
(declare-const x3 Real)
(declare-const x4 Real)
(assert (<= (- 2) x1 2))
(assert (<= (- 2) x2 2))
(assert (<= (- 2) x3 2))
(assert (<= (- 2) x4 2))
(minimize (+ (* x1 x2 x2) (* x1 x3 x3) (* x1 x4 x4) (* (- 1.1) x1) 1))
(check-sat)
