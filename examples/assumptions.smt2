; Which assumptions does a proof need? A car at speed v (m/s) reacts after t seconds and brakes over b metres, with friction m:
; 2 * 9.81 * m * b = v * v. Does it always stop within 85 metres? Each assumption has a name; a check assumes some of them.
; The answers: with all three it does; a dry road and an alert driver are enough; without either there is a counterexample.
; answer: unsat; unsat; delta-sat; delta-sat
; splits: 60
(set-logic QF_NRA)
(declare-const v Real)
(declare-const t Real)
(declare-const m Real)
(declare-const b Real)
(assert (and (<= 10 v 30) (<= 0 t 2) (<= 0.3 m 1) (<= 0 b 200)))
(assert (= (* 19.62 m b) (* v v)))
(declare-const dry Bool)
(declare-const slow Bool)
(declare-const alert Bool)
(assert (=> dry (>= m 0.7)))
(assert (=> slow (<= v 25)))
(assert (=> alert (<= t 0.5)))
(assert (>= (+ (* v t) b) 85))
(check-sat-assuming (dry slow alert))
(check-sat-assuming (dry alert))
(check-sat-assuming (dry slow))
(check-sat-assuming (slow alert))
