; Chebyshev's polynomial of degree 6 lies between -1 and 1 on [-1, 1]; it is not below -1.01.
(set-logic QF_NRA)
(declare-const x Real)
(assert (<= (- 1) x 1))
(assert (< (+ (* 32 x x x x x x) (* (- 48) x x x x) (* 18 x x) (- 1)) (- 1.01)))
(check-sat)
