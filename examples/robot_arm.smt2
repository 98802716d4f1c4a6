; A planar arm of two links of length 1: the sines and cosines of its joints are unknowns. Can its hand reach the
; point (1.2, 0.8) with the elbow bent upwards (s2 >= 0)? The answer is a posture.
; answer: delta-sat
(set-logic QF_NRA)
(declare-const c1 Real)
(declare-const s1 Real)
(declare-const c2 Real)
(declare-const s2 Real)
(assert (<= (- 1) c1 1))
(assert (<= (- 1) s1 1))
(assert (<= (- 1) c2 1))
(assert (<= 0 s2 1))
(assert (= (+ (* c1 c1) (* s1 s1)) 1))
(assert (= (+ (* c2 c2) (* s2 s2)) 1))
(assert (= (+ c1 (- (* c1 c2) (* s1 s2))) 1.2))
(assert (= (+ s1 (+ (* s1 c2) (* c1 s2))) 0.8))
(check-sat)
