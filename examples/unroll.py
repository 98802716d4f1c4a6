#!/usr/bin/env python3
"""Prints a bounded model check as a script: `unroll.py STEPS LEVEL [--stacked]`. A stock p grows by p*(1-p)/2 in a step. While it
is harvested (h) it loses 0.2 as well; harvesting starts where p reaches 0.8 and stops where p is down to 0.6. From a stock
between 0.7 and 0.75, can p be at most LEVEL after some of the first STEPS steps? With --stacked the script asks step by step: a
check for each number of steps from 1 to STEPS, whether p can be at most LEVEL after that many.
"""
import sys

DEFINITIONS = '''(define-fun grown ((p Real)) Real (+ p (* 0.5 p (- 1 p))))
(define-fun step ((p Real) (h Bool) (q Real)) Bool
  (ite h (= q (- (grown p) 0.2)) (= q (grown p))))
(define-fun switch ((h Bool) (q Real) (g Bool)) Bool
  (and (=> (>= q 0.8) g) (=> (<= q 0.6) (not g)) (or (>= q 0.8) (<= q 0.6) (= g h))))'''
START = '(assert (and (<= 0.7 p0 0.75) (not h0)))'


def declared(k):
    return f'(declare-const p{k} Real)\n(declare-const h{k} Bool)\n(assert (<= 0 p{k} 2))'


def stepped(k):
    return f'(assert (and (step p{k} h{k} p{k + 1}) (switch h{k} p{k + 1} h{k + 1})))'


def whole(steps, level):
    """All steps, and one check."""
    yield from (declared(k) for k in range(steps + 1))
    yield from (DEFINITIONS, START)
    yield from (stepped(k) for k in range(steps))
    yield '(assert (or %s))' % ' '.join(f'(<= p{k} {level})' for k in range(1, steps + 1))
    yield '(check-sat)'


def stacked(steps, level):
    """One step more before each check."""
    yield from (DEFINITIONS, declared(0), START)
    for k in range(steps):
        yield from (declared(k + 1), stepped(k), f'(push 1)\n(assert (<= p{k + 1} {level}))\n(check-sat)\n(pop 1)')


steps, level = int(sys.argv[1]), sys.argv[2]
print('(set-logic QF_NRA)')
print('\n'.join((stacked if '--stacked' in sys.argv[3:] else whole)(steps, level)))
