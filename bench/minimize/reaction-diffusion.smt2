; Munoz, Narkawicz: Formalization of Bernstein polynomials and applications to global optimization, 2013
; least value: -36.7126907
(set-logic QF_NRA)
(declare-const x1 Real)
(declare-const x2 Real)
(declare-const x3 Real)
(assert (<= (- 5) x1 5))
(assert (<= (- 5) x2 5))
(assert (<= (- 5) x3 5))
(minimize (- (+ (- x1) (* 2 x2)) x3 (* 0.835634534 x2 (+ 1 x2))))
(check-sat)
