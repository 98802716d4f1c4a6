"""The parts of `bench/release`: each measures one thing, and puts it into `bench/results`."""
from __future__ import annotations

import os
import re
import sys
import time
from dataclasses import dataclass, field
from typing import Iterable, Optional

from results import Results, Row, machine
from runs import Run, least, load, run, wait_below
from sets import Script, others, own
from terms import has_power, in_squares, parse, spelled

HERE = os.path.dirname(os.path.abspath(__file__))
sys.path.insert(1, os.path.join(os.path.dirname(HERE), 'checker'))
from dpoly_lines import SPLITS  # noqa: E402

TWIN = os.path.join(HERE, 'twin', 'target', 'release', 'twin')
COUNTS = '-'  # the load of a row in which nothing is timed
SOLVED = ('sat', 'unsat', 'delta-sat')
MOST_SPLITS = '1048576'  # the greatest budget of one call
# The flags with which the plain program has the rule of combinations and linear programmes.
RULE_FLAGS = '--order dfs --mv point --lp 2 --lpskip 8 --cand 16 --lbits 8'.split()


@dataclass
class Asked:
    """What the words of `bench/release` ask for."""

    program: str
    checker: str
    work: str  # a folder for certificates and scripts that are made
    commit: str = ''  # of the program, where its folder does not tell
    twin: str = TWIN
    rule: Optional[str] = None
    older: Optional[str] = None  # for the parts axes and squares
    sets: Optional[str] = None
    seconds: float = 20.0  # processor seconds of one run
    most_load: float = 1.5  # above it nothing is timed
    wait: float = 0.0  # so long a row waits for the machine to be idle
    part_seconds: float = 3600.0  # after so long a part begins no new row
    again: bool = False  # measure what is there too
    only: str = ''
    solvers: list[str] = field(default_factory=list)

    def file(self, name: str) -> str:
        return os.path.join(self.work, name)


class Part:
    """Rows of one file that are due, within the time of the part."""

    def __init__(self, asked: Asked, results: Results):
        self.asked, self.results = asked, results
        self.end = time.monotonic() + asked.part_seconds

    def is_due(self, *key: str) -> bool:
        """Whether a row is still to be measured, and there is time for it."""
        row = self.results.find(*key)
        done = row is not None and row['load'] != ''
        if row is not None and is_over(row) and load() >= self.asked.most_load:
            done = True  # a time-out beside other work is tried again on an idle machine alone
        return (self.asked.again or not done) and time.monotonic() < self.end

    def is_idle(self) -> bool:
        return wait_below(self.asked.most_load, self.asked.wait)

    def put(self, row: Row, timed: Iterable[str], is_idle: bool, begun: float) -> None:
        """Keeps a row; where the machine had other work, without what was timed."""
        if not is_idle:
            row.update({it: '' for it in timed})
        self.keep(row, f'{begun:.2f}' if is_idle else '')

    def keep(self, row: Row, load: str = COUNTS) -> None:
        """Keeps a row, with the load at which it was timed, if it was."""
        row['load'] = load
        self.results.put(row, machine(self.asked.program, self.asked.commit))
        print(self.results.name, *(it for it in row.values() if it), file=sys.stderr, flush=True)


def is_over(row: Row) -> bool:
    """Whether a solver gave no answer within the limit of processor seconds, or none at all."""
    return row.get('answer', '') in ('timeout', 'refused')


def verdict(done: Run) -> str:
    """The answer of any solver in a word."""
    first = done.lines()[0].strip()
    if done.status is None or first in ('timeout', 'unknown time'):
        return 'timeout'
    if first in SOLVED or first == 'unknown':
        return first
    if first.startswith('unknown '):
        return 'unknown ' + first.split()[1]
    return 'refused'


def fixed(seconds: float) -> str:
    return f'{seconds:.4f}'


# --- solvers on scripts

SETS = Results('sets', ['set', 'script'], ['kind', 'status', 'load'])
SOLVE = Results(
    'solve', ['set', 'script', 'solver'], ['answer', 'splits', 'seconds', 'mb', 'load']
)
CHECK = Results('check', ['set', 'script'], ['answer', 'lines', 'bytes', 'seconds', 'mb', 'load'])


def commands(asked: Asked, script: Script, cert: str) -> dict[str, list[str]]:
    """Each solver's command. All may split as often as one call of `dpoly` may."""
    limits = ['--budget', MOST_SPLITS, '--seconds', str(asked.seconds)]
    found = {
        'dpoly': [asked.program, 'solve', '--budget', MOST_SPLITS, script.path, cert],
        'plain': [asked.twin, script.path, '--order', 'dfs', *limits],
        'z3': ['z3', script.path],
        'cvc5': ['cvc5', script.path],
    }
    if asked.rule is not None:
        found['rule'] = [asked.rule, with_squares(asked, script), *RULE_FLAGS, *limits]
    return found


def with_squares(asked: Asked, script: Script) -> str:
    """The script with powers as squares of squares, since the plain program reads none."""
    with open(script.path, encoding='utf-8') as file:
        trees = parse(file.read())
    if not any(map(has_power, trees)):
        return script.path
    path = asked.file('squares.smt2')
    with open(path, 'w', encoding='utf-8') as file:
        file.write('\n'.join(spelled(in_squares(it)) for it in trees) + '\n')
    return path


def splits_of(solver: str, done: Run, cert: str) -> str:
    """How many boxes were split, where it is told: a certificate of a point does not."""
    if solver in ('plain', 'rule'):
        found = re.search(r'^; num .* branches (\d+)', done.output, re.M)
        return found[1] if found else ''
    if solver == 'dpoly' and verdict(done) != 'delta-sat' and os.path.exists(cert):
        with open(cert, encoding='ascii') as file:
            return str(sum(it.startswith(SPLITS) for it in file))
    return ''


def solve(asked: Asked, part: Part, script: Script, solver: str) -> None:
    cert = asked.file('certificate')
    if os.path.exists(cert):
        os.remove(cert)
    idle, begun = part.is_idle(), load()
    words = commands(asked, script, cert)[solver]
    done = least(words, asked.seconds + 1, 3 if idle else 1)
    row = {
        'set': script.set,
        'script': script.name,
        'solver': solver,
        'answer': verdict(done),
        'splits': '' if done.status is None else splits_of(solver, done, cert),
        'seconds': fixed(done.cpu),
        'mb': f'{done.megabytes:.1f}',
    }
    part.put(row, ['seconds'], idle, begun)
    if solver == 'dpoly' and done.status == 0:
        check(asked, script, cert, row['answer'])


def check(asked: Asked, script: Script, cert: str, answer: str) -> None:
    """The check of the certificate that was just written."""
    part = Part(asked, CHECK)
    idle, begun = part.is_idle(), load()
    done = least([asked.checker, script.path, cert], 10 * asked.seconds, 3 if idle else 1)
    said = done.lines()[0]
    wanted = f'confirmed {answer}' if answer in SOLVED else 'open '
    if not said.startswith(wanted):
        sys.exit(f'release: {script.name} was answered {answer}, and its check said {said}')
    with open(cert, 'rb') as file:
        text = file.read()
    row = {
        'set': script.set,
        'script': script.name,
        'answer': said,
        'lines': str(text.count(b'\n')),
        'bytes': str(len(text)),
        'seconds': fixed(done.cpu),
        'mb': f'{done.megabytes:.1f}',
    }
    part.put(row, ['seconds'], idle, begun)


def solve_all(asked: Asked, scripts: list[Script]) -> None:
    """Every solver that is there on every script; those without an answer so far come last."""
    names = Part(asked, SETS)
    for it in scripts:
        if names.is_due(it.set, it.name):
            names.keep({'set': it.set, 'script': it.name, 'kind': it.kind(), 'status': it.status})
    part, checks = Part(asked, SOLVE), Part(asked, CHECK)
    solvers = asked.solvers or (list(commands(asked, scripts[0], '')) if scripts else [])
    for solver in solvers:
        for script in sorted(scripts, key=lambda it: is_left_open(it, solver)):
            key = script.set, script.name
            due = part.is_due(*key, solver)
            if solver == 'dpoly' and not is_left_open(script, solver):
                due = due or checks.is_due(*key)
            if asked.only in script.name and due:
                solve(asked, part, script, solver)


def is_left_open(script: Script, solver: str) -> bool:
    row = SOLVE.find(script.set, script.name, solver)
    return row is not None and is_over(row)


def scripts_part(asked: Asked) -> None:
    """The scripts of `bench/scripts` by every solver."""
    solve_all(asked, own())


def reach_part(asked: Asked) -> None:
    """The scripts of the folders in `--sets`, which are harder."""
    solve_all(asked, others(asked.sets))
