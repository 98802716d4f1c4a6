; The same car as in gears.smt2: can it be faster than 13 m/s after three steps? Two or three quick steps suffice,
; so the answer is a witness: the speeds, and the gear of each step.
; answer: delta-sat
(set-logic QF_NRA)
(declare-const v0 Real)
(declare-const v1 Real)
(declare-const v2 Real)
(declare-const v3 Real)
(declare-const g0 Bool)
(declare-const g1 Bool)
(declare-const g2 Bool)
(assert (and (<= 0 v0 40) (<= 0 v1 40) (<= 0 v2 40) (<= 0 v3 40)))
(define-fun quicker ((v Real)) Real (+ v (* 0.5 (- 4 (* 0.004 v v)))))
(define-fun slower ((v Real)) Real (+ v (* 0.5 (- 1 (* 0.008 v v)))))
(define-fun step ((g Bool) (v Real) (w Real)) Bool
  (and (ite g (= w (quicker v)) (= w (slower v))) (=> g (<= v 15))))
(assert (= v0 10))
(assert (step g0 v0 v1))
(assert (step g1 v1 v2))
(assert (step g2 v2 v3))
(assert (>= v3 13))
(check-sat)
