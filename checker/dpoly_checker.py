#!/usr/bin/env python3
"""A second checker of dpoly's certificates, in plain Python.

    python3 checker/dpoly_checker.py SCRIPT CERT [--bound N]

It prints what `dpoly-check` prints and ends with the same status. It was written from
docs/FORMATS.md, by one who had not read the sources in Rattle, so that two readings of that page
can be compared (`tests/checkers`); what the page left open was asked of the program and written
there. Goals and least values, square roots and quotients, and version 5 were added with knowledge
of the definitions. The words are those of the page, which an auditor keeps beside these files;
together they take more than an hour:

    dpoly_intervals.py  ends and intervals
    dpoly_script.py     reads a script: terms, atoms and forms
    dpoly_roots.py      puts constants in the place of its roots and quotients
    dpoly_rows.py       enclosures, narrowing and combinations
    dpoly_squares.py    combinations less sums of squares
    dpoly_forms.py      whether the form is true
    dpoly_lines.py      the words of a tree's lines, and what each version has
    dpoly_checker.py    the cover and the certificate, line by line

What it does not do: it is not proved. It is slower than `dpoly-check` and holds the certificate in
memory. Where an assertion exceeds one of the limits Nodes, Atoms and Forms and has another fault of
its phase besides, it may name the other one. It does not know the fault `TooLong` of a certificate,
and `-` does not stand for standard input."""
from __future__ import annotations

import os
import re
import sys
import time
from copy import copy
from fractions import Fraction
from itertools import product
from typing import (Any, Callable, Collection, Dict, Iterable, Iterator, List, Mapping, NamedTuple,
                    Optional, Sequence, Tuple)

from dpoly_forms import Form
from dpoly_intervals import INFINITE, UNIT, End, Interval, meet, rounded, within
from dpoly_lines import BEHIND_BOUND, RULES, VERSIONS, Rule
from dpoly_roots import rewritten
from dpoly_rows import Combiner, Graph, Narrowed, Pair, Rows, Space, narrowed
from dpoly_script import (SCRIPT_FAULTS, WIDEST, Names, Problem, ScriptFault, Terms,
                          read_expressions, steps_of)
from dpoly_squares import Block, is_positive

CERTIFICATE_FAULTS = ('BadHeader BadNumber RuleFails Missing Extra WrongBound NotShown BadLine '
                      'LineTooLong').split()
# The domains of a Bool axis, by their words: the least and the greatest truth value.
DOMAINS = {'false': (False, False), 'true': (True, True), 'both': (False, True)}
MOST_LEMMAS = 1048576
LONGEST_LINE = 524288

# What a line says behind its word.
Values = List[Any]
Report = Callable[[int, int], None]


class CertificateFault(Exception):
    """Its name, and the line's word with RuleFails."""


# ---------------------------------------------------------------- States
class State:
    """A space with marks. The space has an interval for each Real axis and for each Bool axis the
    least and the greatest truth value. The marks are True for yes and False for no."""
    __slots__ = ('space', 'marks')

    def __init__(self, space: Space, marks: Mapping[int, bool]):
        self.space, self.marks = space, marks

    def marked(self, atom: int, mark: bool) -> State:
        return State(self.space, {**self.marks, atom: mark})

    def all_marked(self, atoms: Iterable[int], mark: bool) -> State:
        return State(self.space, {**self.marks, **dict.fromkeys(atoms, mark)})

    def on(self, axis: int, domain: Tuple[int, int]) -> State:
        """The state with another domain of one axis."""
        return State((*self.space[:axis], domain, *self.space[axis + 1 :]), self.marks)

    def narrowed_to(self, axes: Narrowed) -> State:
        """The state with what an operation leaves of some axes."""
        if not axes:
            return self
        space: List[Tuple[int, int]] = list(self.space)
        for axis, interval in axes.items():
            space[axis] = interval
        return State(tuple(space), self.marks)

    def covers(self, state: State) -> bool:
        """Whether a lemma, which is this state, covers another state."""
        if not self.marks.items() <= state.marks.items():
            return False
        for (low, high), (other_low, other_high) in zip(self.space, state.space):
            if other_low < low or high < other_high:
                return False
        return True


def kept_range(kind: str, loosening: End, mark: bool = True) -> Interval:
    """The range of an atom of this kind at a loosening; its off-range where the mark is no."""
    if not mark:
        return (loosening, INFINITE) if kind == '<=' else (-INFINITE, -loosening)
    return (-INFINITE if kind == '<=' else -loosening), (INFINITE if kind == '>=' else loosening)


# ---------------------------------------------------------------- The cover
def root_space(problem: Problem) -> Space:
    """The space of the root state."""
    space: List[Tuple[int, int]] = []
    for axis in range(len(problem.names.axes)):
        if axis in problem.declared:
            low, high = problem.declared[axis]
            space.append((rounded(low)[0], rounded(high)[1]))
        else:
            space.append(DOMAINS['both'])
    return tuple(space)


class Cover:
    """The cover of a certificate of some version, or of a part, with the lemmas that it keeps;
    margin and delta are ends, and so is `lower`, the bound where the cover is one of a least
    value."""
    def __init__(self, problem: Problem, version: int, margin: End, delta: End,
                 kept: Sequence[State] = (), lower: Optional[End] = None):
        self.problem, self.version, self.lower = problem, VERSIONS[version], lower
        self.margin, self.delta = margin, delta
        self.lemmas, self.first = list(kept), len(kept)
        self.axes, self.atoms, self.declared = problem.names.axes, problem.atoms, problem.declared
        self.rows, self.form = Rows(Graph(problem.terms)), Form(problem.forms)
        self.combiner = Combiner(self.rows)
        self.ranges = [kept_range(kind, margin) for _, kind in self.atoms]

    # ---- what holds over a space
    def value(self, atom: int, state: State) -> Interval:
        """The enclosure of an atom's term."""
        self.rows.follow(state.space)
        return self.rows.enclosure(self.atoms[atom][0])

    def goal(self, space: Space) -> Interval:
        """The enclosure of the goal."""
        self.rows.follow(space)
        return self.rows.enclosure(self.problem.goal)

    def meets(self, atom: int, state: State) -> bool:
        """Whether an atom is not marked no and its enclosure meets its range at margin."""
        return (state.marks.get(atom) is not False and
                meet(self.value(atom, state), self.ranges[atom]) is not None)

    def lies(self, atom: int, state: State) -> bool:
        """Whether an atom's enclosure lies within its range at delta."""
        return within(self.value(atom, state), kept_range(self.atoms[atom][1], self.delta))

    def may(self, state: State, atom: Optional[int] = None) -> bool:
        """Whether the form can be true at a state. Where it cannot, that may be for the mark of
        `atom`, whose conjuncts are looked at first."""
        return self.form.is_true(lambda it: self.meets(it, state),
                                 lambda axis, value: value in state.space[axis],
                                 self.form.conjuncts_with(atom) if atom is not None else ())

    def sure(self, state: State) -> bool:
        """Whether the form is sure over a space."""
        return self.form.is_true(lambda it: self.lies(it, state),
                                 lambda axis, value: state.space[axis] == (value, value))

    def root(self) -> State:
        """The root state."""
        return State(root_space(self.problem), {})

    # ---- the rules
    def after(self, word: str, numbers: Values, state: State, main: bool) -> Optional[List[State]]:
        """The states that a line leaves of a state, or None if its condition fails; `main` is true
        in the main tree."""
        if RULES[word].by:
            return self.after_narrowing(RULES[word], numbers, state)
        first = numbers[0] if numbers else None
        if word in ('unit', 'ban', 'case'):
            return self.after_marking(word, numbers, state)
        if word == 'either':
            return self.after_groups(first, state)
        if word == 'false':
            return [] if not self.may(state) else None
        if word == 'by':
            return [] if self.cites(first, state) else None
        if word == 'cut' and first in self.declared:
            (low, high), place = state.space[first], numbers[1]
            if low < place < high:
                return [state.on(first, (low, place)), state.on(first, (place, high))]
        if word == 'flip' and first not in self.declared:
            if state.space[first] == DOMAINS['both']:
                return [state.on(first, DOMAINS['false']), state.on(first, DOMAINS['true'])]
        if word == 'over' and main and self.lower is not None:
            return [] if self.goal(state.space)[0] >= self.lower else None
        if word == 'open' or word == 'stuck' and self.is_stuck(first, state):
            return [] if main and self.lower is None else None
        return None

    def is_stuck(self, atom: int, state: State) -> bool:
        return self.meets(atom, state) and not self.lies(atom, state)

    def cites(self, lemma: int, state: State) -> bool:
        """Whether a lemma stands before this place and covers the state."""
        return lemma < len(self.lemmas) and self.lemmas[lemma].covers(state)

    def after_marking(self, word: str, numbers: Values, state: State) -> Optional[List[State]]:
        """The same for the lines that mark an atom."""
        atom = numbers[0]
        if atom in state.marks:
            return None
        yes, no = state.marked(atom, True), state.marked(atom, False)
        if word == 'case':
            return [yes, no]
        if word == 'unit':
            return [yes] if not self.may(no, atom) else None
        return [no] if self.cites(numbers[1], yes) else None

    def after_groups(self, groups: Groups, state: State) -> Optional[List[State]]:
        """The same for two groups of atoms, of which one holds as a whole where the form does."""
        if not self.are_groups(groups) or any(it in state.marks for it in groups.atoms()):
            return None
        for pair in product(*groups):
            if self.may(state.all_marked(pair, False), pair[0]):
                return None
        return [state.all_marked(it, True) for it in groups]

    def are_groups(self, groups: Groups) -> bool:
        """Whether each has an atom, they ascend, and there are few ways to choose one of each."""
        ways = len(groups.first) * len(groups.second)
        return 0 < ways <= self.version.most_choices and all(map(ascends, groups))

    def after_narrowing(self, rule: Rule, numbers: Values, state: State) -> Optional[List[State]]:
        """The same for the lines that narrow by an atom or by a combination, or close by squares."""
        if rule.by not in self.version.narrows:
            return None
        if rule.by == 'squares':
            return [] if self.is_void(numbers[0], state) else None
        atoms = [it for kind, it in zip(rule.kinds(len(numbers)), numbers) if kind == 'A']
        if not self.are_told(atoms, state):
            return None
        self.rows.follow(state.space)
        if rule.by == 'combination':
            if not self.is_combination(atoms, numbers[1::2]):
                return None
            axes = self.combiner.combined(self.pairs(zip(atoms, numbers[1::2]), state))
        else:
            mark = state.marks[atoms[0]]
            if mark != (rule.by == 'range'):
                return None
            axes = narrowed(self.rows, self.atoms[atoms[0]][0], self.kept(atoms[0], mark))
        if rule.shape == 'ends':
            return [] if axes is None else None
        return [state.narrowed_to(axes)] if axes is not None else None

    def are_told(self, atoms: Sequence[int], state: State) -> bool:
        """Whether each is marked yes, or is an inequality that is marked no."""
        marks = [(it, state.marks.get(it)) for it in atoms]
        return all(mark or mark is False and self.atoms[it][1] != '=' for it, mark in marks)

    def pairs(self, pairs: Iterable[Tuple[int, End]], state: State) -> List[Pair]:
        """Atoms that are told with their multipliers."""
        return [Pair(self.atoms[it][0], multiplier, self.kept(it, state.marks[it]))
                for it, multiplier in pairs]

    def is_void(self, squares: Squares, state: State) -> bool:
        """Whether a combination less sums of squares closes a state."""
        atoms, multipliers = squares.atoms(), [multiplier for _, multiplier in squares.pairs]
        if not atoms or not self.are_told(atoms, state):
            return False
        if not self.is_combination(atoms, multipliers):
            return False
        if not all(it in self.declared for it in squares.axes()):
            return False
        pairs = self.pairs(squares.pairs, state)
        return is_positive(self.rows.graph, state.space, pairs, squares.blocks)

    def is_combination(self, atoms: Sequence[int], multipliers: Sequence[End]) -> bool:
        """Whether these are the pairs of a combination."""
        is_short = len(atoms) <= self.version.most_pairs
        return is_short and ascends(atoms) and 0 not in multipliers

    def kept(self, atom: int, mark: bool) -> Interval:
        """The range of an atom at the margin, or its off-range."""
        return self.ranges[atom] if mark else kept_range(self.atoms[atom][1], self.margin, False)

    # ---- reading
    def read_tree(self, lines: Lines, state: State, main: bool = False) -> int:
        """Reads the tree of a state; the number of its open and stuck states."""
        waiting, count = [state], 0
        while waiting:
            state = waiting.pop()
            word, numbers = lines.take() or (None, [])
            if word not in RULES:
                raise CertificateFault('Missing')
            self.check_names(word, numbers)
            if main and self.problem.empty:
                left = self.after_empty(word, numbers)
            else:
                left = self.after(word, numbers, state, main)
            if left is None:
                raise CertificateFault('RuleFails', word)
            count += RULES[word].shape == 'stays'
            waiting.extend(reversed(left))
        return count

    def check_names(self, word: str, numbers: Values) -> None:
        """Each number that names an axis or an atom has to name one."""
        if not self.has_all(word, numbers):
            raise CertificateFault('BadNumber')

    def has_all(self, word: str, numbers: Values) -> bool:
        """Whether there is each axis and each atom that a line of a tree names."""
        limits = {'A': len(self.atoms), 'X': len(self.axes)}
        return all(kind not in limits or it < limits[kind] for kind, it in named(word, numbers))

    def after_empty(self, word: str, numbers: Values) -> Optional[List[State]]:
        """What a line of the main tree leaves where the declared box is empty."""
        if word != 'empty' or numbers[0] not in self.declared:
            return None
        low, high = self.declared[numbers[0]]
        return [] if low > high else None

    def read_lemma(self, lines: Lines, number: int) -> None:
        """Reads a lemma: its state and its tree."""
        if lines.due('lemma', 1, number > self.first) != [number]:
            raise CertificateFault('BadNumber')
        space: List[Tuple[int, int]] = []
        for axis in range(len(self.axes)):
            if axis in self.declared:
                low, high = lines.due('real', 2)
                if low > high:
                    raise CertificateFault('BadNumber')
                space.append((low, high))
            else:
                space.append(DOMAINS[lines.due('bool')[0]])
        marks: Dict[int, bool] = {}
        for word in ('yes', 'no'):
            atoms = lines.due(word)
            if any(it >= len(self.atoms) or it in marks for it in atoms) or not ascends(atoms):
                raise CertificateFault('BadNumber')
            marks.update(dict.fromkeys(atoms, word == 'yes'))
        self.read_tree(lines, State(tuple(space), marks))
        self.lemmas.append(State(tuple(space), marks))

    def read_cover(self, lines: Lines, many: int) -> int:
        """Reads the lines of a cover; the number of its open and stuck states."""
        for number in range(self.first, many):
            self.read_lemma(lines, number)
        lines.due('tree', 0, many > self.first)
        count = self.read_tree(lines, self.root(), True)
        lines.due('end', 0, True)
        return count

    def read_point(self, lines: Lines) -> Space:
        """Reads the lines of a point: its space."""
        space: List[Tuple[int, int]] = []
        is_near = True
        for axis in range(len(self.axes)):
            [value] = lines.due('real' if axis in self.declared else 'bool', 1)
            if value == 'both':
                raise CertificateFault('BadLine')
            if axis in self.declared:
                low, high = (it * UNIT for it in self.declared[axis])
                is_near = is_near and low - self.delta <= value <= high + self.delta
                space.append((value, value))
            else:
                space.append(DOMAINS[value])
        lines.due('end')
        if not is_near or not self.sure(State(tuple(space), {})):
            raise CertificateFault('NotShown')
        return tuple(space)


def ascends(numbers: Sequence[int]) -> bool:
    return all(a < b for a, b in zip(numbers, numbers[1:]))


# ---------------------------------------------------------------- Lines
# What follows the word of a line that is none of a tree: N a number below 2^32, D a number of the
# grid, B or L the one or the other, or `none`, T a key of DOMAINS.
KINDS = {
    **dict.fromkeys('dpoly margin delta goal checks cover keep lemma'.split(), 'N'),
    **dict.fromkeys('point tree end'.split(), ''), 'bound': 'B', 'lower': 'L', 'bool': 'T'}
NATURAL = re.compile('0|[1-9][0-9]{0,9}').fullmatch
DYADIC = re.compile('(-?[1-9][0-9]{0,18})b(0|-?[1-9][0-9]{0,2})').fullmatch


def kinds_of(word: str, count: int) -> Optional[str]:
    """The same for any line with so many words after the first; None if it is no word of a line."""
    if word in RULES:
        return RULES[word].kinds(count)
    if word in ('yes', 'no'):
        return 'N' * count
    if word == 'real':
        return 'DD' if count == 2 else 'D'
    return KINDS.get(word)


def natural(word: str) -> int:
    number = int(word) if NATURAL(word) else 2**32
    if number >= 2**32:
        raise CertificateFault('BadNumber')
    return number


def grid_number(word: str) -> End:
    if word == '0':
        return 0
    found = DYADIC(word)
    if found is None:
        raise CertificateFault('BadNumber')
    mantissa, exponent = int(found[1]), int(found[2])
    is_on_grid = exponent >= -120 and abs(mantissa) << max(0, exponent - 60) <= 2**62
    if mantissa % 2 == 0 or not is_on_grid:
        raise CertificateFault('BadNumber')
    return mantissa << exponent + 120


class Squares(NamedTuple):
    """What stands behind the word of a sum of squares."""
    pairs: List[Tuple[int, End]]
    blocks: List[Block]

    def atoms(self) -> List[int]:
        return [atom for atom, _ in self.pairs]

    def axes(self) -> Iterator[int]:
        for block in self.blocks:
            if block.factor is not None:
                yield block.factor
            for monomial in block.monomials:
                yield from monomial

    def names(self) -> Iterator[Tuple[str, int]]:
        """Atoms and axes, each with its letter."""
        yield from (('A', it) for it in self.atoms())
        yield from (('X', it) for it in self.axes())


class Groups(NamedTuple):
    """What stands behind the word of a branch with two groups of atoms."""
    first: List[int]
    second: List[int]

    def atoms(self) -> List[int]:
        return [*self.first, *self.second]

    def names(self) -> Iterator[Tuple[str, int]]:
        """Atoms, each with its letter."""
        yield from (('A', it) for it in self.atoms())


def named(word: str, values: Values) -> Iterator[Tuple[str, Any]]:
    """What stands behind the word of a line of a tree, each with its letter; of a sum of squares
    its atoms and axes, of two groups their atoms."""
    if RULES[word].operands in ('S', 'G'):
        yield from values[0].names()
    else:
        yield from zip(RULES[word].kinds(len(values)), values)


class Operands:
    """Words that are read from the left; the first fault is told."""
    def __init__(self, words: Sequence[str]):
        self.words, self.at = words, 0

    def word(self) -> str:
        if self.at == len(self.words):
            raise CertificateFault('BadLine')
        self.at += 1
        return self.words[self.at - 1]

    def natural(self) -> int:
        return natural(self.word())

    def number(self) -> End:
        return grid_number(self.word())

    def many(self, count: int, one: Callable[[], Any]) -> List[Any]:
        return [one() for _ in range(count)]

    def squares(self) -> Squares:
        pairs = self.many(self.natural(), lambda: (self.natural(), self.number()))
        blocks = []
        while self.at < len(self.words):
            blocks.append(self.block())
        return Squares(pairs, blocks)

    def groups(self) -> Groups:
        first = self.many(self.natural(), self.natural)
        return Groups(first, self.many(len(self.words) - self.at, self.natural))

    def block(self) -> Block:
        kind = self.natural()
        if kind > 1:
            raise CertificateFault('BadLine')
        factor = self.natural() if kind else None
        count = self.natural()
        monomials = self.many(count, lambda: tuple(self.many(self.natural(), self.natural)))
        return Block(factor, monomials, [self.many(it, self.number) for it in range(count, 0, -1)])


# What reads a word of each kind; `none` is None.
READERS: Dict[str, Callable[[str], Any]] = {
    **dict.fromkeys('NAXM', natural), 'D': grid_number, 'T': str,
    'B': lambda word: None if word == 'none' else natural(word),
    'L': lambda word: None if word == 'none' else grid_number(word)}


class Lines:
    """The lines of a certificate, one after the other; `number` is that of the last one taken.
    `report` is told now and then how many of how many were taken."""
    def __init__(self, certificate: bytes, report: Optional[Report] = None):
        self.lines, self.number, self.report = certificate.split(b'\n'), 0, report
        if not self.lines[-1]:
            self.lines.pop()

    def take(self) -> Optional[Tuple[str, Values]]:
        """The word and the values of the next line; None at the end."""
        self.number += 1
        if self.number > len(self.lines):
            return None
        if self.report and self.number % 64 == 0:
            self.report(self.number, len(self.lines))
        line = self.lines[self.number - 1]
        if len(line) > LONGEST_LINE:
            raise CertificateFault('LineTooLong')
        word, *rest = line.decode('latin-1').split(' ')
        kinds = kinds_of(word, len(rest))
        if kinds is None or '' in rest or not line.isascii():
            raise CertificateFault('BadLine')
        if kinds == 'S':
            return word, [Operands(rest).squares()]
        if kinds == 'G':
            return word, [Operands(rest).groups()]
        if len(kinds) != len(rest):
            raise CertificateFault('BadLine')
        if kinds == 'T' and rest[0] not in DOMAINS:
            raise CertificateFault('BadLine')
        return word, [READERS[kind](it) for kind, it in zip(kinds, rest)]

    def due(self, word: str, many: Optional[int] = None, after_tree: bool = False) -> Values:
        """The values of the line that is due: it has this word and so many values (None for any
        number)."""
        found = self.take()
        if found and found[0] == word and many in (None, len(found[1])):
            return found[1]
        is_extra = after_tree and found and found[0] in RULES
        raise CertificateFault('Extra' if is_extra else 'Missing')

    def header(self, *words: str) -> Tuple[str, Values]:
        """The next line, one of the header, which has one of these words."""
        found = self.take()
        if not found or found[0] not in words:
            raise CertificateFault('BadHeader')
        return found


# ---------------------------------------------------------------- Certificates
class Header(NamedTuple):
    """The version, the bits of margin and delta, and the bound."""
    version: int
    margin: int
    delta: int
    bound: Optional[int]

    @property
    def ends(self) -> Tuple[End, End]:
        """Margin and delta."""
        return UNIT >> self.margin, UNIT >> self.delta


def read_header(lines: Lines, of: Collection[str] = BEHIND_BOUND) -> Header:
    """The first four lines of a certificate of one of these."""
    version = lines.header('dpoly')[1][0]
    if version not in VERSIONS or VERSIONS[version].of.isdisjoint(of):
        raise CertificateFault('BadHeader')
    margin, delta = lines.header('margin')[1][0], lines.header('delta')[1][0]
    if not (1 <= delta <= 30 and delta < margin <= 60):
        raise CertificateFault('BadHeader')
    return Header(version, margin, delta, lines.header('bound')[1][0])


def behind_bound(header: Header, of: Collection[str], lines: Lines) -> Tuple[str, Values]:
    """The next line, which is the one behind the bound; the certificate is of one of these."""
    those = VERSIONS[header.version].of.intersection(of)
    return lines.header(*(word for it in those for word in BEHIND_BOUND[it]))


def takes(problems: Sequence[Problem]) -> Collection[str]:
    """What a certificate of these problems may be of, by the keys of `BEHIND_BOUND`."""
    if len(problems) > 1:
        return ['several checks']
    return ['one check'] if problems[0].goal is None else ['one check', 'least value']


def kept_lemmas(before: Optional[Problem], cover: Optional[Cover], problem: Problem, lines: Lines,
                many: int) -> List[State]:
    """The lemmas that a part keeps of the one before, which was of the problem `before` and has the
    cover `cover`, if it was one: what `keep` says behind the number of lemmas."""
    [count] = lines.due('keep', 1)
    may: List[State] = []
    if cover and problem.extends and not before.empty and not problem.empty:
        may = cover.lemmas
    if count > min(many, len(may)):
        raise CertificateFault('RuleFails', 'keep')
    root = root_space(problem) if count else ()
    return [State(it.space + root[len(it.space) :], it.marks) for it in may[:count]]


def number_of_lemmas(values: Values) -> int:
    """The number of a line `cover`, which has these values."""
    if values[0] > MOST_LEMMAS:
        raise CertificateFault('BadHeader')
    return values[0]


def check_part(problem: Problem, header: Header, first: Tuple[str, Values], lines: Lines,
               kept: Callable[[int], Sequence[State]]) -> Tuple[Optional[Cover], str]:
    """The cover of a part, None for a point, and the answer; `first` is its first line, `kept`
    gives its lemmas."""
    word, values = first
    if word == 'point':
        Cover(problem, header.version, *header.ends).read_point(lines)
        return None, f'confirmed delta-sat\ndelta 1b-{header.delta}\n'
    many = number_of_lemmas(values)
    cover = Cover(problem, header.version, *header.ends, kept(many))
    count = cover.read_cover(lines, many)
    closed = f'confirmed unsat\nmargin 1b-{header.margin}\n'
    return cover, f'open {count}\n' if count else closed


def end_text(end: End) -> str:
    """An end as it is printed: a number of the grid, or `none`."""
    if abs(end) == INFINITE:
        return 'none'
    zeros = (end & -end).bit_length() - 1
    return f'{end >> zeros}b{zeros - 120}' if end else '0'


def limited(problem: Problem, bits: int, bound: End) -> Problem:
    """The problem with the limit that its goal is at most `bound`: one more atom,
    `2^bits * t - n <= 0`, whose constants are new, and which the form asks for."""
    is_number = bits < 120 and abs(bound) != INFINITE
    whole, rest = divmod(bound << bits, UNIT) if is_number else (0, 1)
    constants = [('constant', Fraction(2**bits)), ('constant', Fraction(-whole))]
    are_new = len(set(constants) - set(problem.terms.numbers)) == 2
    has_room = len(problem.terms.parts) <= 1048572 and len(problem.atoms) < 65536
    if rest or not are_new or abs(whole) > WIDEST or not has_room:
        raise CertificateFault('BadHeader')
    found, found.terms = copy(problem), Terms()
    for parts in problem.terms.parts:
        found.terms.make(*parts)
    product = found.terms.make('times', found.terms.make(*constants[0]), problem.goal)
    term = found.terms.make('plus', product, found.terms.make(*constants[1]))
    found.atoms = [*problem.atoms, (term, '<=')]
    last = len(problem.forms)
    found.forms = [*problem.forms, ('atom', len(problem.atoms)), ('all', (last - 1, last))]
    return found


def check_least(problem: Problem, header: Header, first: Tuple[str, Values], lines: Lines) -> str:
    """The answer to a certificate of a least value; `first` is its line `lower`."""
    [lower] = first[1]
    lower = -INFINITE if lower is None else lower
    word, values = lines.header('cover', 'goal')
    of_cover = problem
    if word == 'goal':
        of_cover = limited(problem, values[0], lower)
        word, values = lines.header('cover')
    cover = Cover(of_cover, header.version, *header.ends, lower=lower)
    cover.read_cover(lines, number_of_lemmas(values))
    answer, found = f'confirmed lower {end_text(lower)}\n', lines.take()
    if not found:
        return answer
    if found[0] != 'point':
        raise CertificateFault('Extra')
    cover = Cover(problem, header.version, *header.ends)
    return answer + f'upper {end_text(cover.goal(cover.read_point(lines))[1])}\n'


def check_several(problems: Sequence[Problem], header: Header, first: Tuple[str, Values],
                  lines: Lines) -> str:
    """The answer to a certificate of several checks; `first` is its line `checks`."""
    if first[1] != [len(problems)]:
        raise CertificateFault('BadHeader')
    answers: List[str] = []
    cover: Optional[Cover] = None
    before: Optional[Problem] = None
    for problem in problems:
        found = lines.take()
        if not found or found[0] not in ('cover', 'point'):
            raise CertificateFault('Missing')
        cover, answer = check_part(problem, header, found, lines,
                                   lambda many: kept_lemmas(before, cover, problem, lines, many))
        answers.append(answer)
        before = problem
    return ''.join(answers)


def check_certificate(problems: Sequence[Problem], lines: Lines, bound: Optional[int]) -> str:
    """The answer to a certificate that is accepted, of the problems of a script's checks: a text
    for each, in order."""
    of = takes(problems)
    header = read_header(lines, of)
    if header.bound != bound:
        raise CertificateFault('WrongBound')
    first = behind_bound(header, of, lines)
    if first[0] == 'checks':
        answer = check_several(problems, header, first, lines)
    elif first[0] == 'lower':
        answer = check_least(problems[0], header, first, lines)
    else:
        answer = check_part(problems[0], header, first, lines, lambda _: ())[1]
    if lines.take():
        raise CertificateFault('Extra')
    return answer


# ---------------------------------------------------------------- The whole
def read_problems(script: bytes, bound: Optional[int]) -> List[Problem]:
    """The problems of a script's checks, phase after phase, the last phases check after check: as
    it is written, and where that has a fault with constants in the place of its roots and
    quotients."""
    steps = steps_of(read_expressions(script))
    try:
        return [Problem(it, bound) for it in Names(steps).checks]
    except ScriptFault as fault:
        written = fault
    try:
        checks = Names(steps, roots=True).checks
        return [Problem(rewritten(it, script, bound), bound) for it in checks]
    except ScriptFault as rooted:
        raise (written if is_told(written, rooted) else rooted)


def is_told(written: ScriptFault, rooted: ScriptFault) -> bool:
    """Whether the fault of a script as it is written is told, where there is one with roots too:
    where roots mend nothing of it, or it is a divisor before the place from which on the script is
    too large for them."""
    (name, at, *limit), (other, place, *other_limit) = written.args, rooted.args
    if name == 'DivisorNotConstant':
        return (other, other_limit) == ('TooMany', ['Size']) and at < place
    return (name in ('NumberTooWide', 'ZeroDivisor', 'NoBound', 'BoundTooWide') or
            limit in (['Size'], ['Nodes'], ['Atoms'], ['Forms']))


def check(script: bytes, certificate: bytes, bound: Optional[int] = None,
          report: Optional[Report] = None) -> Tuple[int, str]:
    """The exit status of a check and its text on standard output."""
    lines = Lines(certificate, report)
    try:
        return 0, check_certificate(read_problems(script, bound), lines, bound)
    except ScriptFault as fault:
        return 2, script_fault_text(script, fault)
    except CertificateFault as fault:
        number = CERTIFICATE_FAULTS.index(fault.args[0]) + 1
        return 1, f'certificate fault {number} {" ".join(fault.args)} line {lines.number}\n'


def script_fault_text(script: bytes, fault: ScriptFault) -> str:
    name, at, *detail = fault.args
    line = column = 0
    if at is not None:
        line, column = script.count(b'\n', 0, at) + 1, at - script.rfind(b'\n', 0, at)
    words = ['script fault', str(SCRIPT_FAULTS.index(name) + 1), name, *detail, f'{line}:{column}']
    return ' '.join(words) + '\n'


USAGE = """usage: dpoly_checker.py SCRIPT CERT [--bound N]

  SCRIPT     the SMT-LIB script that was solved
  CERT       the certificate that dpoly wrote of it
  --bound N  the bound with which it was solved: -N or N, from 1 to 4294967295, for each Real
             constant without a lower or an upper bound

It prints what dpoly-check prints, with the same exit status: 0 confirmed, or open; 1 the
certificate is refused; 2 the script is; 3 the arguments are; 4 a file cannot be read. Where
standard error is a terminal, or DPOLY_PROGRESS is set, a check of more than two seconds shows there
how far it is.
"""


def progress() -> Optional[Report]:
    """What shows how far a check is: a line a second that renews itself; None where nobody
    looks."""
    is_terminal = sys.stderr.isatty()
    if not is_terminal and 'DPOLY_PROGRESS' not in os.environ:
        return None
    last = time.monotonic() + 1

    def report(number: int, count: int) -> None:
        nonlocal last
        if time.monotonic() - last >= 1:
            last = time.monotonic()
            end = '' if is_terminal else '\n'
            sys.stderr.write(f'\rdpoly_checker: {number} of {count} lines{end}')
            sys.stderr.flush()

    return report


def read_file(path: str) -> bytes:
    with open(path, 'rb') as file:
        return file.read()


def main(arguments: Sequence[str]) -> Tuple[int, str]:
    """The exit status and the text of a call."""
    if list(arguments) in (['--help'], ['-h']):
        return 0, USAGE
    bound, paths = None, list(arguments)
    if '--bound' in paths[:-1]:
        at = paths.index('--bound')
        bound = int(paths[at + 1]) if re.fullmatch('[0-9]{1,20}', paths[at + 1]) else 0
        del paths[at : at + 2]
    is_bound = bound is None or 1 <= bound < 2**32
    if len(paths) != 2 or any(it.startswith('-') for it in paths) or not is_bound:
        sys.stderr.write(USAGE)
        return 3, 'usage fault\n'
    try:
        script, certificate = map(read_file, paths)
    except OSError as error:
        print(f'dpoly_checker: cannot read {error.filename}: {error.strerror}', file=sys.stderr)
        return 4, ''
    return check(script, certificate, bound, progress())


if __name__ == '__main__':
    status, text = main(sys.argv[1:])
    if sys.stderr.isatty():
        sys.stderr.write('\r\033[K')
    sys.stdout.buffer.write(text.encode('utf-8', 'surrogateescape'))
    sys.exit(status)
