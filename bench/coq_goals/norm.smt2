; The Euclidean norm is at least 7/10 of the sum, since 7/10 is below the root of 1/2: x and y from 1 to 4.
(set-logic QF_NRA)
(declare-const x Real)
(declare-const y Real)
(assert (<= 1 x 4))
(assert (<= 1 y 4))
(assert (< (sqrt (+ (* x x) (* y y))) (* 0.7 (+ x y))))
(check-sat)
