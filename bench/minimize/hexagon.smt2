; Graham: The largest small hexagon, 1975
; least value: -0.6749814429, a root of 4096 t^10 + 8192 t^9 - 3008 t^8 - 30848 t^7 + 21056 t^6 + 146496 t^5 - 221360 t^4 + 1232 t^3
; + 144464 t^2 - 78488 t + 11993 with its sign turned
(set-logic QF_NRA)
; The greatest area of a hexagon whose vertices are at most 1 apart, of those with an axis that has two vertices at distance 1 on it, as that
; of greatest area has: its vertices are (0, 0), (a, b), (c, d), (0, 1), (-c, d), (-a, b).
(declare-const a Real)
(declare-const b Real)
(declare-const c Real)
(declare-const d Real)
(assert (<= 0 a 0.5))
(assert (<= 0 b 1))
(assert (<= 0 c 0.5))
(assert (<= 0 d 1))
(define-fun near ((x Real) (y Real)) Bool (<= (+ (* x x) (* y y)) 1))
(assert (near a b))
(assert (near c d))
(assert (near a (- 1 b)))
(assert (near c (- 1 d)))
(assert (near (- c a) (- d b)))
(assert (near (+ c a) (- d b)))
(minimize (- (+ (- (* a d) (* c b)) c)))
(check-sat)
