; Munoz, Narkawicz: Formalization of Bernstein polynomials and applications to global optimization, 2013
; least value: -3.1800966258
(set-logic QF_NRA)
(declare-const x1 Real)
(declare-const x2 Real)
(declare-const x3 Real)
(declare-const x4 Real)
(assert (<= (- 0.5) x1 0.5))
(assert (<= (- 0.5) x2 0.5))
(assert (<= (- 0.5) x3 0.5))
(assert (<= (- 0.5) x4 0.5))
(minimize (+ (- (* x1 x3 x3 x3)) (* 4 x2 x3 x3 x4) (* 4 x1 x3 x4 x4) (* 2 x2 x4 x4 x4) (* 4 x1 x3) (* 4 x3 x3) (* (- 10) x2 x4) (* (- 10) x4 x4) 2))
(check-sat)
