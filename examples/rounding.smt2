; How far can x*x - 2*x + 1 be from what is computed of it for x in [0, 2], where each of three operations is rounded to eight binary digits?
; Each of them gives its exact result times 1 + e for some e of at most 2^-8: a for the square, b for the difference, c for the sum (2*x is
; exact). The greatest error, 0.01965, is the opposite of the least value of its opposite.
; minimum: -0.0207 -0.0186
; answer: delta-sat
(set-logic QF_NRA)
(declare-const x Real)
(declare-const a Real)
(declare-const b Real)
(declare-const c Real)
(assert (<= 0 x 2))
(assert (<= (- 0.00390625) a 0.00390625))
(assert (<= (- 0.00390625) b 0.00390625))
(assert (<= (- 0.00390625) c 0.00390625))
(define-fun exact () Real (+ (- (* x x) (* 2 x)) 1))
(define-fun computed () Real (* (+ (* (- (* x x (+ 1 a)) (* 2 x)) (+ 1 b)) 1) (+ 1 c)))
(minimize (- exact computed))
(check-sat)
