; A step of Newton's method for the reciprocal: where y is within 1/256 of 1 / x, y (2 - x y) is within 1/16384 of it.
(set-logic QF_NRA)
(declare-const x Real)
(declare-const y Real)
(assert (<= 1 x 2))
(assert (<= 0.4 y 1.1))
(assert (<= (- (/ 1 256)) (- y (/ 1 x)) (/ 1 256)))
(assert (< (- (* y (- 2 (* x y))) (/ 1 x)) (- (/ 1 16384))))
(check-sat)
