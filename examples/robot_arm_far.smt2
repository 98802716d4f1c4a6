; The arm of robot_arm.smt2 can't reach the point (1.5, 1.5), whose distance is more than both links together.
; answer: unsat
; splits: 5
(set-logic QF_NRA)
(declare-const c1 Real)
(declare-const s1 Real)
(declare-const c2 Real)
(declare-const s2 Real)
(assert (and (<= (- 1) c1 1) (<= (- 1) s1 1) (<= (- 1) c2 1) (<= (- 1) s2 1)))
(assert (= (+ (* c1 c1) (* s1 s1)) 1))
(assert (= (+ (* c2 c2) (* s2 s2)) 1))
(assert (= (+ c1 (- (* c1 c2) (* s1 s2))) 1.5))
(assert (= (+ s1 (+ (* s1 c2) (* c1 s2))) 1.5))
(check-sat)
