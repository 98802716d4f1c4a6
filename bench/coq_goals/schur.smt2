; Schur's inequality x (x - y) (x - z) + y (y - x) (y - z) + z (z - x) (z - y) >= 0 of numbers that are not negative, here of the
; unit cube and with 1/50 to spare.
(set-logic QF_NRA)
(declare-const x Real)
(declare-const y Real)
(declare-const z Real)
(assert (<= 0 x 1))
(assert (<= 0 y 1))
(assert (<= 0 z 1))
(assert (< (+ (* x (- x y) (- x z)) (* y (- y x) (- y z)) (* z (- z x) (- z y))) (- (/ 1 50))))
(check-sat)
