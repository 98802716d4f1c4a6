"""The part `minimize`: the goals of `bench/minimize` whose least value is known."""
from __future__ import annotations

import os
import re
import sys
from fractions import Fraction

from parts import MOST_SPLITS, Asked, Part, fixed, splits_of
from results import Results, Row
from runs import least, load, run

HERE = os.path.dirname(os.path.abspath(__file__))
FOLDER = os.path.join(HERE, 'minimize')
LIMIT = 60  # processor seconds of a run, for each worker
TIMED = ['seconds', 'four workers', 'check', 'told']
COLUMNS = ['least value', 'answer', 'lower', 'upper', 'splits', *TIMED, 'splits told', 'load']
GOALS = Results('minimize', ['goal'], COLUMNS)


def number(text: str) -> Fraction:
    mantissa, _, exponent = text.partition('b')
    return int(mantissa) * Fraction(2) ** int(exponent or 0)


def literal(value: Fraction) -> str:
    """A number as a term of SMT-LIB."""
    size = f'(/ {abs(value.numerator)} {value.denominator})'
    return f'(- {size})' if value < 0 else size


def told(script: str, lower: Fraction) -> str:
    """The script with the assertion that its goal is at most a number, in place of the goal.

    It is scaled by 2^12, as the limits of `minimize` are at its usual gap."""
    at = script.index('(minimize ')
    depth = end = 0
    for end in range(at, len(script)):
        depth += {'(': 1, ')': -1}.get(script[end], 0)
        if not depth:
            break
    goal = script[at + len('(minimize ') : end]
    limit = f'(assert (<= (* 4096 {goal}) {literal(4096 * lower)}))'
    return script[:at] + limit + script[end + 1 :]


def minimize_part(asked: Asked) -> None:
    """Goals whose least value is known, with one worker and four."""
    part = Part(asked, GOALS)
    with open(os.path.join(FOLDER, 'INDEX.tsv'), encoding='utf-8') as file:
        lines = file.read().splitlines()[1:]
    for line in lines:
        name, least_value, _ = line.split('\t')
        if asked.only in name and part.is_due(name):
            row(asked, part, name, least_value)


def row(asked: Asked, part: Part, name: str, least_value: str) -> None:
    script, cert = os.path.join(FOLDER, name + '.smt2'), asked.file('certificate')
    idle, begun = part.is_idle(), load()
    words = [asked.program, 'minimize', '--budget', MOST_SPLITS, script, cert]
    four = run([*words, '--workers', '4'], 4 * LIMIT)
    one = least(words, LIMIT, 3 if idle else 1)
    found: Row = {'goal': name, 'least value': least_value, 'answer': one.lines()[0]}
    if one.status is None:
        found['answer'] = 'timeout'
        part.put(found, TIMED, idle, begun)
        return
    found |= {'seconds': fixed(one.cpu), 'four workers': fixed(four.wall)}
    found['splits'] = splits_of('dpoly', one, cert)
    found['check'] = fixed(checked(asked, script, cert, one.output, name))
    bounds = re.search(r'lower (\S+)\nupper (\S+)', one.output)
    if bounds:
        found |= {'lower': shown(bounds[1]), 'upper': shown(bounds[2])}
        if bounds[1] != 'none':
            found |= by_solve(asked, script, number(bounds[1]))
    part.put(found, TIMED, idle, begun)


def shown(value: str) -> str:
    return value if value == 'none' else f'{float(number(value)):.7g}'


def checked(asked: Asked, script: str, cert: str, answer: str, name: str) -> float:
    """Seconds of the checker, which has to confirm what was answered."""
    lines = answer.splitlines(True)
    wanted = 'confirmed ' + ''.join(lines[:2] if lines[0] == 'unsat\n' else lines[1:3])
    done = run([asked.checker, script, cert], LIMIT)
    if done.output != wanted:
        sys.exit(f'release: the certificate of {name} is not confirmed')
    return done.cpu


def by_solve(asked: Asked, script: str, lower: Fraction) -> Row:
    """Seconds and splits of `solve` that is told the lower bound."""
    path, cert = asked.file('told.smt2'), asked.file('told')
    with open(script, encoding='ascii') as file:
        text = told(file.read(), lower)
    with open(path, 'w', encoding='ascii') as file:
        file.write(text)
    done = least([asked.program, 'solve', '--budget', MOST_SPLITS, path, cert], LIMIT, 3)
    if done.lines()[0] != 'unsat':
        return {}
    return {'told': fixed(done.cpu), 'splits told': splits_of('dpoly', done, cert)}
