#!/usr/bin/env python3
"""Twenty goals by the tactics that users of Coq have, and by certificates (docs/COQ.md).

    bench/coq_tactics.py LIBRARY [--tactics dpoly,interval,nra,psatz,gappa] [--program DPOLY]
                         [--commit C] [--seconds S] [--jobs N] [--page] [NAME ..]

LIBRARY is `coq/theories` after `make -C coq`. The goals are theorems written from scripts,
`hypotheses -> conclusion`, where the last assertion is denied as the conclusion. A row of the
table is printed for each: user seconds without loading Coq's libraries, of the best of a tactic's
options; `fails`, `> S` where one was stopped after S seconds and none proved the goal, `-` where
the goal cannot be stated. `dpoly` needs the program, `gappa` the program Gappa and its library
for Coq, `psatz` csdp. With `--page` the table goes into the page, with what it was measured on."""
import argparse
import multiprocessing
import os
import re
import resource
import signal
import subprocess
import sys
import tempfile
from fractions import Fraction
from glob import glob
from typing import Any, Dict, Iterator, List, NamedTuple, Tuple

import tables

TOP = os.path.dirname(os.path.dirname(os.path.abspath(__file__)))
sys.dont_write_bytecode = True
sys.path.insert(0, os.path.join(TOP, 'python'))
from dpoly import coq  # noqa: E402

TACTICS = 'dpoly', 'interval', 'nra', 'psatz', 'gappa'
ARITHMETICS = 'Big', 'Prim'
# A folder with scripts, and those of its scripts that are goals.
FOLDERS = {
    'examples': ['lyapunov', 'barrier', 'spiral', 'motzkin', 'means', 'parts', 'circles',
                 'distance', 'saturation', 'harvest'],
    'bench/scripts': ['polyineq-caprasse-1_16', 'polyineq-delta-32', 'globopt-goldstein-n2-m1',
                      'hong-n6', 'tangent-d4-e1_128'],
    'bench/coq_goals': ['schur', 'nesbitt', 'norm', 'chebyshev', 'reciprocal'],
}
# What a user of Gappa adds: an error written as it is to be bounded.
REWRITING = {'reciprocal': 'y * (2 - x * y) - 1 / x -> - x * ((y - 1 / x) * (y - 1 / x)) '
                           '{ x <> 0 };'}
# What `solve` is told: the reciprocal's bound has less than 2^-14 to spare.
OPTIONS = {'reciprocal': ['--delta-bits', '20', '--margin-bits', '24']}
# Hypotheses are introduced, choices and Bool values are taken case by case, conjunctions are split.
OPEN_UP = '''Ltac open_up := unfold not; intros; repeat match goal with
  | p : bool |- _ => destruct p
  | |- context [if ?c then _ else _] => destruct c
  | H : _ /\\ _ |- _ => destruct H
  | |- _ /\\ _ => split
  | |- _ -> _ => intros
  end.
Ltac one_side :=
  first [apply Rminus_le | apply Rminus_lt | apply Rle_ge, Rminus_le | apply Rlt_gt, Rminus_lt].
Ltac upwards := first [apply Rle_ge | apply Rlt_gt | idtac].
'''
REALS, OPENED = 'From Coq Require Import Reals', 'Local Open Scope R_scope.\n'
HEADS = {
    'interval': f'{REALS}.\nFrom Interval Require Import Tactic.\n{OPENED}',
    'nra': f'{REALS} Lra Psatz.\n{OPENED}',
    'psatz': f'{REALS} Lra Psatz.\n{OPENED}',
    'gappa': 'From Flocq Require Import Core.\nFrom Gappa Require Import Gappa_library.\n',
    **{it: 'From Coq Require Import ZArith NArith Reals List.\n'
           f'From Dpoly Require Import Statement Certificate {it}.\n' for it in ARITHMETICS},
}


def tenths(seconds: float) -> str:
    """Loading Coq's libraries differs by hundredths from one time to the next."""
    return f'{seconds:.1f}' if seconds >= 0.1 else '< 0.1'


class Outcome(NamedTuple):
    """What came of one attempt; seconds are user seconds."""

    is_proved: bool
    seconds: float
    is_stopped: bool
    said: str


def seconds_used(session: int) -> float:
    """User seconds of the processes of a session, and of those that they have waited for."""
    ticks = 0
    for path in glob('/proc/[0-9]*/stat'):
        try:
            with open(path) as file:
                fields = file.read().rpartition(')')[2].split()
        except OSError:
            continue
        if int(fields[3]) == session:
            ticks += int(fields[11]) + int(fields[13])
    return ticks / os.sysconf('SC_CLK_TCK')


def run(command: List[str], folder: str, seconds: float) -> Outcome:
    """Runs a command, and stops it when it and what it calls have taken so many user seconds."""
    said, is_stopped = os.path.join(folder, 'said'), False
    before = resource.getrusage(resource.RUSAGE_CHILDREN).ru_utime
    with open(said, 'w') as file:
        process = subprocess.Popen(command, cwd=folder, stdout=file, stderr=subprocess.DEVNULL,
                                   start_new_session=True)
    while process.returncode is None:
        try:
            process.wait(0.2)
        except subprocess.TimeoutExpired:
            if seconds_used(process.pid) > seconds:
                is_stopped = True
                os.killpg(process.pid, signal.SIGKILL)
    used = resource.getrusage(resource.RUSAGE_CHILDREN).ru_utime - before
    with open(said) as file:
        return Outcome(process.returncode == 0, used, is_stopped, file.read())


class Goal:
    """A goal: its theorem, its variables, and the trees of its assertions; the last is denied."""

    def __init__(self, folder: str, name: str):
        self.name = name
        with open(os.path.join(TOP, folder, name + '.smt2'), 'rb') as file:
            self.script = file.read()
        [(written, check)] = coq.read_check(self.script, None)
        self.trees = coq.Trees(written, self.script)
        self.assertions = [it.tree for it in self.trees.asserted]
        self.options = coq.Options('Big', 'goal', len(self.assertions))
        self.part = coq.Part(written, check, self.script, None, self.options)
        self.names = {it.name: self.part.names[it.name] for it in written.axes}
        self.reals = [self.names[it.name] for it in written.axes if it.sort == 'Real']
        self.has_bools = len(self.reals) < len(written.axes)

    def statement(self) -> str:
        """The theorem, with decimals as fractions: not all tactics read decimals."""
        def fraction(found: Any) -> str:
            value = Fraction(found[0])
            return f'({value.numerator} / {value.denominator})'

        return re.sub(r'\b[0-9]+\.[0-9]+', fraction, '\n'.join(self.part.statement()))

    def compares_terms(self) -> bool:
        """Whether a comparison of the conclusion has no number on a side."""
        pairs = comparisons(self.assertions[-1])
        return any(not (a.is_number or b.is_number) for a, b in pairs)


def comparisons(tree: Any) -> Iterator[Tuple[Any, Any]]:
    if tree.kind == 'applied' and tree.value in ('<=', '<', '>=', '>', '='):
        yield from zip(tree.parts, tree.parts[1:])
    elif tree.kind == 'applied':
        for it in tree.parts:
            yield from comparisons(it)


# ---------------------------------------------------------------- Gappa
class Unstated(Exception):
    """Gappa's language lacks what the goal needs."""


def value_of(tree: Any) -> Fraction:
    if tree.kind == 'leaf':
        return Fraction(tree.value.value)
    first, *rest = (value_of(it) for it in tree.parts)
    if tree.value == '-' and not rest:
        return -first
    for it in rest:
        if tree.value in '+-':
            first += it if tree.value == '+' else -it
        else:
            first *= it if tree.value == '*' else 1 / it
    return first


def decimal(value: Fraction) -> str:
    digits = next((it for it in range(40) if (value * 10**it).denominator == 1), None)
    if digits is None:
        raise Unstated
    return f'{value * 10**digits}e-{digits}' if digits else str(value)


class GappaText:
    """Trees in Gappa's language, which has no strict comparisons: they are read as the others."""

    MIRRORED = {'<': '>', '>': '<', '=': '='}
    OPPOSITE = {'<=': '>=', '<': '>=', '>=': '<=', '>': '<='}

    def __init__(self, names: Dict[str, str]):
        self.names = names

    def real(self, tree: Any) -> str:
        if tree.is_number:
            return f'({decimal(value_of(tree))})'
        if tree.kind == 'leaf':
            return self.names[tree.value.value]
        parts = [self.real(it) for it in tree.parts]
        if tree.kind == 'root':
            return f'sqrt({parts[0]})'
        if tree.kind == 'quotient':
            return f'({parts[0]} / {parts[1]})'
        if tree.value not in ('+', '-', '*', '/'):
            raise Unstated
        return f'(- {parts[0]})' if len(parts) == 1 else f"({f' {tree.value} '.join(parts)})"

    def compared(self, a: Any, b: Any) -> str:
        """What is compared with a number in a comparison of `a` with `b`."""
        return self.real(a) if b.is_number else f'{self.real(a)} - {self.real(b)}'

    def comparison(self, sign: str, a: Any, b: Any) -> str:
        if a.is_number and not b.is_number:
            return self.comparison(self.MIRRORED[sign[0]] + sign[1:], b, a)
        left, right = self.compared(a, b), decimal(value_of(b)) if b.is_number else '0'
        return f'{left} in [{right},{right}]' if sign == '=' else f'{left} {sign[0]}= {right}'

    def formula(self, tree: Any) -> str:
        if tree.kind != 'applied':
            raise Unstated
        name, parts = tree.value, tree.parts
        ends = [parts[0], parts[-1]]
        if name in ('<=', '<') and len(parts) == 3 and all(it.is_number for it in ends):
            low, high = (decimal(value_of(it)) for it in ends)
            return f'{self.real(parts[1])} in [{low},{high}]'
        if name in ('<=', '<', '>=', '>') or name == '=' and not self.is_bool(parts[0]):
            return ' /\\ '.join(self.comparison(name, a, b) for a, b in zip(parts, parts[1:]))
        if name in ('and', 'or'):
            sign = ' /\\ ' if name == 'and' else ' \\/ '
            return f'({sign.join(map(self.formula, parts))})'
        raise Unstated

    @staticmethod
    def is_bool(tree: Any) -> bool:
        return tree.kind == 'applied' and tree.value not in ('+', '-', '*', '/')

    def denied(self, tree: Any) -> str:
        if tree.kind == 'applied' and tree.value in self.OPPOSITE and len(tree.parts) == 2:
            return self.comparison(self.OPPOSITE[tree.value], *tree.parts)
        if tree.kind == 'applied' and tree.value == 'or':
            return '(' + ' /\\ '.join(map(self.denied, tree.parts)) + ')'
        if tree.kind == 'applied' and tree.value == 'and':
            *given, last = tree.parts
            return '(' + ' -> '.join([*map(self.formula, given), self.denied(last)]) + ')'
        return f'not ({self.formula(tree)})'


def gappa_texts(goal: Goal) -> Iterator[str]:
    """The goal for Gappa, with each way to take the variables' ranges apart."""
    if goal.has_bools:
        raise Unstated
    text = GappaText(goal.names)
    *given, last = goal.assertions
    logic = ' -> '.join([*map(text.formula, given), text.denied(last)])
    statement = f"{{ {logic} }}\n{REWRITING.get(goal.name, '')}\n"
    expressions = [text.compared(a, b) for a, b in comparisons(last)]
    ways = [', '.join(goal.reals)]
    if len(goal.reals) <= 2:
        parts = 64 if goal.reals[1:] else 4096
        ways.append(', '.join(f'{it} in {parts}' for it in goal.reals))
    yield statement
    for way in ways:
        yield statement + ''.join(f'{it} $ {way};\n' for it in expressions)


# ---------------------------------------------------------------- The table
def calls(tactic: str, goal: Goal) -> Iterator[str]:
    """The tactic in each way in which a user would try it."""
    if tactic == 'interval':
        side = 'one_side' if goal.compares_terms() else 'upwards'
        options = ', '.join([*(f'i_bisect {it}' for it in goal.reals), 'i_depth 60'])
        yield f'open_up; {side}; interval with ({options})'
        for it in goal.reals[:2]:
            for more in (f'i_taylor {it}', f'i_autodiff {it}'):
                yield f'open_up; {side}; interval with ({options}, {more})'
    else:
        for call in ['nra'] if tactic == 'nra' else [f'psatz R {it}' for it in (1, 2, 3)]:
            case_by_case = f'intuition (try discriminate; {call})'
            yield f'open_up; {case_by_case if goal.has_bools else call}'


class Measure:
    """Attempts in a folder of their own. `loading` has the seconds of each head."""

    def __init__(self, words: argparse.Namespace, folder: str, loading: Dict[str, float]):
        self.words, self.limit, self.folder, self.loading = words, words.seconds, folder, loading

    def path(self, name: str, content: bytes = b'') -> str:
        found = os.path.join(self.folder, name)
        with open(found, 'wb') as file:
            file.write(content)
        return found

    def coqc(self, text: str, seconds: float) -> Outcome:
        command = ['coqc', '-q', '-Q', os.path.abspath(self.words.library), 'Dpoly',
                   self.path('goal.v', text.encode())]
        return run(command, self.folder, seconds)

    def proof(self, head: str, text: str, seconds: float) -> Outcome:
        """Coq on a text with a head, without the seconds that loading takes."""
        loading = self.loading[head]
        found = self.coqc(text, seconds + loading)
        return found._replace(seconds=max(0.0, found.seconds - loading))

    def gappa(self, text: str, seconds: float) -> Outcome:
        """Gappa, and Coq on the proof that it writes."""
        command = ['gappa', '-Bcoq', '-Wno-dichotomy-failure', self.path('goal.g', text.encode())]
        found = run(command, self.folder, seconds)
        if not found.is_proved:
            return found
        proof = self.proof('gappa', found.said, seconds)
        return proof._replace(seconds=found.seconds + proof.seconds)

    def attempts(self, tactic: str, goal: Goal) -> Iterator[Outcome]:
        """Each way to try the tactic, stopped where it takes longer than the best one before."""
        best = self.limit
        for it in gappa_texts(goal) if tactic == 'gappa' else calls(tactic, goal):
            if tactic == 'gappa':
                found = self.gappa(it, best)
            else:
                text = f'{HEADS[tactic]}{OPEN_UP}{goal.statement()}\nProof. {it}. Qed.\n'
                found = self.proof(tactic, text, best)
            if found.is_proved:
                best = min(best, found.seconds)
            yield found

    def dpoly(self, goal: Goal) -> List[str]:
        """Lines of the certificate, seconds of the search and of Coq with each arithmetic."""
        script, certificate = self.path('goal.smt2', goal.script), self.path('goal.cert')
        words = ['solve', *OPTIONS.get(goal.name, []), script, certificate]
        search = run([os.path.abspath(self.words.program), *words], self.folder, 600)
        if not search.said.startswith('unsat'):
            return [search.said.split()[0] if search.said else 'fails', '', '', '']
        with open(certificate, 'rb') as file:
            lines = file.read()
        cells = [f'{lines.count(10):,}', tenths(search.seconds)]
        for it in ARITHMETICS:
            text = coq.theorem(goal.script, lines, goal.options._replace(arithmetic=it))
            cells.append(self.verdict([self.proof(it, text, self.limit)]))
        return cells

    def cells(self, tactic: str, goal: Goal) -> List[str]:
        if tactic == 'dpoly':
            return self.dpoly(goal)
        try:
            return [self.verdict(list(self.attempts(tactic, goal)))]
        except Unstated:
            return ['-']

    def verdict(self, found: List[Outcome]) -> str:
        proved = [it.seconds for it in found if it.is_proved]
        if proved:
            return tenths(min(proved))
        return f'> {self.limit:g}' if any(it.is_stopped for it in found) else 'fails'


class Job(NamedTuple):
    """A tactic on a goal of a folder."""

    words: argparse.Namespace
    loading: Dict[str, float]
    place: str
    name: str
    tactic: str


def cells_of(job: Job) -> List[str]:
    with tempfile.TemporaryDirectory() as folder:
        measure = Measure(job.words, folder, job.loading)
        return measure.cells(job.tactic, Goal(job.place, job.name))


def load_seconds(words: argparse.Namespace) -> Dict[str, float]:
    """User seconds in which Coq reads each head, the least of three times."""
    with tempfile.TemporaryDirectory() as folder:
        measure = Measure(words, folder, {})
        return {head: min(measure.coqc(text, 60).seconds for _ in range(3))
                for head, text in HEADS.items()}


def table(words: argparse.Namespace, tactics: List[str]) -> Iterator[List[str]]:
    """The head of the table and its rows, one after the other."""
    heads = {'dpoly': ['lines', '`solve`', *(f'`dpoly`, {it}' for it in ARITHMETICS)]}
    yield ['goal', *(cell for it in tactics for cell in heads.get(it, [f'`{it}`']))]
    goals = [(place, name) for place, names in FOLDERS.items() for name in names
             if not words.names or name in words.names]
    loading = load_seconds(words)
    jobs = [Job(words, loading, place, name, it) for place, name in goals for it in tactics]
    with multiprocessing.Pool(words.jobs) as pool:
        cells = pool.imap(cells_of, jobs)
        for _, name in goals:
            yield [name, *(cell for _ in tactics for cell in next(cells))]


def proved(rows: List[List[str]]) -> List[str]:
    """The last row: how many goals are proved in each column of seconds of Coq."""
    columns = list(zip(*rows))
    return ['proved'] + ['' if column[0] in ('lines', '`solve`') else
                         str(sum(bool(re.match('[<0-9]', it)) for it in column[1:]))
                         for column in columns[1:]]


def main() -> None:
    parser = argparse.ArgumentParser(
        description=__doc__, formatter_class=argparse.RawDescriptionHelpFormatter)
    tables.add_words(parser)
    parser.add_argument('--tactics', default=','.join(TACTICS))
    parser.add_argument('--seconds', type=float, default=30)
    parser.add_argument('names', nargs='*')
    words = parser.parse_intermixed_args()
    tactics = [it for it in words.tactics.split(',') if it != 'dpoly' or words.program]
    rows = []
    for row in table(words, tactics):
        rows.append(row)
        print('|', ' | '.join(row), '|', flush=True)
    if words.page:
        run_on = tables.run_on(words, {'stopped after': f'{words.seconds:g} s'})
        whole = tables.markdown(rows[0], [*rows[1:], proved(rows)])
        tables.put('COQ.md', {'tactics-run': run_on, 'tactics': whole})


if __name__ == '__main__':
    main()
