; x^2 - 2xy + y^2 is a square, so it is never -1/128. But delta is 1/32 here: a point where it is at most
; -1/128 + 1/32 satisfies the loosened script, and delta-sat says no more than that. near_miss_finer.smt2 asks the
; same with the default delta, and the answer is unsat.
; options: --delta-bits 5
; answer: delta-sat
(set-logic QF_NRA)
(declare-const x Real)
(declare-const y Real)
(assert (<= 0 x 1))
(assert (<= 0 y 1))
(assert (<= (+ (- (* x x) (* 2 x y)) (* y y)) (- (/ 1 128))))
(check-sat)
