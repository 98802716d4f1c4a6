; With boxes no smaller than 1/4 this question stays open: 'unknown width' shows a box that could not be decided and
; the atom that stands in the way. narrow.smt2 is the same script with the default least width, which decides it.
; options: --least-bits 2
; answer: unknown width
; splits: 20
(set-logic QF_NRA)
(declare-const x Real)
(declare-const y Real)
(assert (<= 0 x 1))
(assert (<= 0 y 1))
(assert (>= (- (* x y) (* y x) ) (/ 1 64)))
(check-sat)
