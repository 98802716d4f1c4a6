#!/usr/bin/env python3
"""Scripts with square roots and quotients, and the same written by hand, with a constant and its equation for each: the answer and how many
boxes are split. `bench/roots.py PROGRAM`."""
import os
import subprocess
import sys
import tempfile

TOP = os.path.dirname(os.path.dirname(os.path.abspath(__file__)))
sys.path.insert(1, os.path.join(TOP, 'checker'))
from dpoly_lines import SPLITS  # noqa: E402


def real(name, low, high):
    return f'(declare-const {name} Real)(assert (<= {low} {name} {high}))'


def root(of, high):
    return f'(sqrt {of})', f'(declare-const NAME Real)(assert (<= 0 NAME {high}))(assert (= (* NAME NAME) {of}))'


def quotient(a, b, low, high):
    return f'(/ {a} {b})', f'(declare-const NAME Real)(assert (<= {low} NAME {high}))(assert (= (* NAME {b}) {a}))'


# By name: the declared constants, the roots and quotients in order, which stand in later ones and in the assertion as R0, R1, ..
SCRIPTS = {
    'triangle': (real('a', 1, 2) + real('b', 1, 2) + real('c', 1, 2) + real('d', -1, 2).replace('-1', '(- 1)'),
                 [root('(+ (* a a) (* b b))', 3), root('(+ (* c c) (* d d))', 3), root('(+ (* (+ a c) (+ a c)) (* (+ b d) (+ b d)))', 6)],
                 '(< (+ R0 R1) (- R2 0.1))'),
    'means': (real('a', 1, 4) + real('b', 1, 4), [root('(* a b)', 4)], '(> R0 (+ (/ (+ a b) 2) 0.01))'),
    'harmonic': (real('a', 1, 4) + real('b', 1, 4), [quotient('1', 'a', 0.25, 1), quotient('1', 'b', 0.25, 1), quotient('2', '(+ R0 R1)', 1, 4),
                 root('(* a b)', 4)], '(> R2 (+ R3 0.05))'),
    'carts': (real('t', 0, 4) + real('v', 1.9, 2.1) + real('w', 0.4, 0.5),
              [root('(+ (* (- 6 t (* v t)) (- 6 t (* v t))) (* (+ 2 (* w t)) (+ 2 (* w t))))', 9)], '(< R0 2.6)'),
    'parallel': (real('a', 1, 10) + real('b', 1, 10), [quotient('(* a b)', '(+ a b)', 0, 50)], '(or (> R0 (+ a 0.01)) (< R0 0.4))'),
    'lens': (real('f', 1, 2) + real('a', 3, 6), [quotient('(* f a)', '(- a f)', 0, 12)], '(or (< R0 (* 0.9 f)) (> R0 (+ (* 3 f) 1)))'),
    'speeds': (real('u', '(- 0.9)', 0.9) + real('v', '(- 0.9)', 0.9), [quotient('(+ u v)', '(+ 1 (* u v))', '(- 10)', 10)], '(>= R0 1)'),
    'throw': (real('v', 5, 10) + real('h', 1, 2), [root('(+ (* v v) (* 19.62 h))', 12)], '(> (/ (+ v R0) 9.81) (+ (/ (* 2 v) 9.81) 0.41))'),
    'two roots': (real('a', 0, 9) + real('b', 0, 9), [root('a', 3), root('b', 3)], '(and (= (+ R0 R1) 3) (= (* a b) 4))'),
    'no two roots': (real('a', 0, 9) + real('b', 0, 9), [root('a', 3), root('b', 3)], '(and (= (+ R0 R1) 3) (= (* a b) 6))'),
    'quadratic': (real('b', 3, 4) + real('c', 0, 2), [root('(- (* b b) (* 4 c))', 4)],
                  '(let ((z (/ (- R0 b) 2))) (> (+ (* z z) (* b z) c) 0.05))'),
}


def put(text, parts):
    for number, part in enumerate(parts):
        text = text.replace(f'R{number}', part)
    return text


def texts(declared, parts, assertion):
    """The script with roots, and by hand."""
    with_roots, names, relations = [], [], ''
    for number, (term, relation) in enumerate(parts):
        relations += put(relation, names).replace('NAME', f'r{number}')
        with_roots.append(put(term, with_roots))
        names.append(f'r{number}')
    return [f'{declared}{more}(assert {put(assertion, named)})(check-sat)' for more, named in (('', with_roots), (relations, names))]


def main(program):
    print('| script | answer | splits with roots | by hand |\n|---|---|---|---|')
    with tempfile.TemporaryDirectory() as folder:
        script, cert = (os.path.join(folder, it) for it in ('script', 'cert'))
        for name, parts in SCRIPTS.items():
            found = []
            for text in texts(*parts):
                with open(script, 'w') as file:
                    file.write(text)
                answer = subprocess.run([program, 'solve', script, cert], stdout=subprocess.PIPE, text=True).stdout.split('\n')[0]
                with open(cert) as file:
                    found.append((answer, sum(line.startswith(SPLITS) for line in file)))
            (answer, first), (other, second) = found
            print(f'| {name} | {answer if answer == other else f"{answer}, {other}"} | {first} | {second} |')


if __name__ == '__main__':
    main(os.path.abspath(sys.argv[1]))
