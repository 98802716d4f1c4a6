; Optimal power flow of two buses: WB2 of Bukhsh, Grothey, McKinnon, Trodden: Local solutions of the optimal power flow problem, 2013
; least value: 8.777777778, in hundred dollars an hour; the other minimum is 9.0573
(set-logic QF_NRA)
; voltages in rectangular coordinates, from 0.95 to 1.05, powers in units of 100 MVA
(declare-const e1 Real)
(declare-const e2 Real)
(declare-const f2 Real)
(declare-const p Real)
(assert (<= 0.95 e1 1.05))
(assert (<= (- 1.05) e2 1.05))
(assert (<= (- 1.05) f2 1.05))
(assert (<= 0 p 6))
(define-fun w1 () Real (* e1 e1))
(define-fun w2 () Real (+ (* e2 e2) (* f2 f2)))
(define-fun c () Real (* e1 e2))
(define-fun s () Real (- (* e1 f2)))
(assert (<= 0.9025 w2 1.1025))
; the line has resistance 0.04 and reactance 0.2: at bus 2 it gives 350 MW and takes 350 MVAr
(assert (= (/ (- (* 0.04 (- w2 c)) (* 0.2 s)) 0.0416) (- 3.5)))
(assert (= (/ (+ (* 0.2 (- w2 c)) (* 0.04 s)) 0.0416) 3.5))
(assert (= (/ (+ (* 0.04 (- w1 c)) (* 0.2 s)) 0.0416) p))
(assert (<= (- 4) (/ (- (* 0.2 (- w1 c)) (* 0.04 s)) 0.0416) 4))
(minimize (* 2 p))
(check-sat)
