#!/usr/bin/env python3
"""How splits grow: solves scripts of a few families and writes their tables into docs/LARGE.md.

`bench/growth.py PROGRAM`. A table stands behind its mark `<!-- table: NAME -->`. It has the splits
of `solve` with one worker and default options, but for a budget that lets it end; `open` where it
does not end.
"""
import os
import subprocess
import sys
import tempfile
from typing import Dict, Sequence

import tables

TOP = os.path.dirname(os.path.dirname(os.path.abspath(__file__)))
sys.path.insert(1, os.path.join(TOP, 'checker'))
from dpoly_lines import SPLITS  # noqa: E402

BUDGET = 1048576
# What the term of one variable is at its least, rounded down.
LEAST = '78.3324'


def styblinski(variables: int, width: int, gap: str) -> str:
    """The sum of x^4 - 16 x^2 + 5 x falls by the gap below its least value."""
    names = [f'x{number}' for number in range(variables)]
    lines = [f'(declare-const {it} Real)\n(assert (<= (- {width}) {it} {width}))' for it in names]
    terms = [f'(+ (* {it} {it} {it} {it}) (* (- 16) {it} {it}) (* 5 {it}))' for it in names]
    whole = terms[0] if variables == 1 else f'(+ {" ".join(terms)})'
    lines.append(f'(assert (<= {whole} (- (+ (* {variables} {LEAST}) {gap}))))')
    return '\n'.join(lines + ['(check-sat)\n'])


def commuted(width: int, gap: str) -> str:
    """Two products with the same value, as different terms, differ by the gap."""
    return (f'(declare-const x Real)\n(declare-const y Real)\n'
            f'(assert (and (<= 0 x {width}) (<= 0 y {width})))\n'
            f'(assert (>= (- (* x y) (* y x)) {gap}))\n(check-sat)\n')


def harvest(steps: int) -> str:
    """The harvested stock of the examples."""
    unroll = os.path.join(TOP, 'examples', 'unroll.py')
    return subprocess.run([unroll, str(steps), '0.5'], check=True, text=True,
                          stdout=subprocess.PIPE).stdout


def splits(program: str, script: str) -> str:
    """How many boxes a search for a script splits."""
    with tempfile.TemporaryDirectory() as folder:
        path, kept = os.path.join(folder, 'script'), os.path.join(folder, 'certificate')
        with open(path, 'w', encoding='ascii') as file:
            file.write(script)
        done = subprocess.run([program, 'solve', '--budget', str(BUDGET), path, kept], check=True,
                              text=True, stdout=subprocess.PIPE, stderr=subprocess.DEVNULL)
        with open(kept, encoding='ascii') as file:
            count = sum(line.startswith(SPLITS) for line in file)
    return f'{count:,}' if done.stdout.startswith('unsat\n') else 'open'


def table(program: str, head: str, names: Sequence[str], scripts: Sequence[str]) -> str:
    """A table of one row: what changes, and the splits."""
    return tables.markdown([head, *names], [['splits', *(splits(program, it) for it in scripts)]])


def measured(program: str) -> Dict[str, str]:
    """All tables, by their marks."""
    gaps = ['4', '2', '1', '1/2', '1/4', '1/8', '1/16']
    small = ['1/8', '1/16', '1/32', '1/64', '1/128', '1/256']

    def fraction(text: str) -> str:
        return f'(/ {text.replace("/", " ")})' if '/' in text else text

    return {
        'gap': table(program, 'G, with N = 5', gaps,
                     [styblinski(2, 5, fraction(it)) for it in gaps]),
        'width': table(program, 'N, with G = 1', ['5', '10', '20', '40'],
                       [styblinski(2, it, '1') for it in (5, 10, 20, 40)]),
        'commuted-gap': table(program, 'G, with N = 1', small,
                              [commuted(1, fraction(it)) for it in small]),
        'commuted-width': table(program, 'N, with G = 1/16', ['1', '2', '4', '8'],
                                [commuted(it, '(/ 1 16)') for it in (1, 2, 4, 8)]),
        'variables': table(program, 'n', [str(it) for it in range(1, 6)],
                           [styblinski(it, 5, '1') for it in range(1, 6)]),
        'steps': table(program, 'steps', [str(it) for it in range(4, 25, 4)],
                       [harvest(it) for it in range(4, 25, 4)]),
    }


if __name__ == '__main__':
    tables.put('LARGE.md', measured(sys.argv[1]))
