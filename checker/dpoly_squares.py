"""Combinations of atoms less sums of squares, for the checker in plain Python (`dpoly_checker.py`).
What each step is stands in docs/FORMATS.md, "Sums of squares"; this file has its order of
operations, since each is rounded.

A polynomial is in the differences of axes to the middle of a space: its monomials, ascending lists
of axes with a place for each factor, each with an interval for a coefficient.
"""
from __future__ import annotations

from typing import Dict, List, NamedTuple, Optional, Sequence, Tuple

from dpoly_intervals import (INFINITE, NOUGHT, UNIT, End, Interval, down, less, minus, plus, rounded, square,
                             times)
from dpoly_rows import ONE, Graph, Pair, Space

Monomial = Tuple[int, ...]
Polynomial = Dict[Monomial, Interval]

MOST_NUMBERS = 8000  # of a line
MOST_STEPS = 1 << 20
MOST_FACTORS = 32  # of a monomial


class Block(NamedTuple):
    """Squares of polynomials, times a factor: 1, or h - d^2 for the difference d of an axis and
    the greatest h of d^2. Row k has the coefficients of polynomial k, of monomial k and those
    after it."""
    factor: Optional[int]
    monomials: List[Monomial]
    rows: List[List[End]]

    def count(self) -> int:
        """How many numbers the line has for it, at most."""
        return 3 + sum(len(it) + 1 for it in self.monomials) + sum(map(len, self.rows))

    def is_well_formed(self) -> bool:
        """Whether its monomials are some, ascend, and differ."""
        return (0 < len(self.monomials) == len(set(self.monomials)) and
                all(len(it) <= MOST_FACTORS and tuple(sorted(it)) == it for it in self.monomials))


class TooLarge(Exception):
    """A limit of the line was reached."""


class Expander:
    """Polynomials over one space, and the steps that they took."""
    def __init__(self, graph: Graph, space: Space):
        self.graph, self.steps = graph, 0
        self.middles = [down(low + high, 2) for low, high in space]
        self.apart = [less(it, (middle, middle)) for it, middle in zip(space, self.middles)]
        self.known: Dict[int, Polynomial] = {}

    def take(self, steps: int) -> None:
        self.steps += steps
        if self.steps > MOST_STEPS:
            raise TooLarge

    # ---- operations
    def sum(self, p: Polynomial, q: Polynomial) -> Polynomial:
        self.take(len(p) + len(q))
        found = dict(p)
        for monomial, coefficient in q.items():
            give(found, monomial, coefficient)
        return found

    def product(self, p: Polynomial, q: Polynomial) -> Polynomial:
        self.take(len(p) * len(q))
        found: Polynomial = {}
        second = sorted(q.items())
        for one, a in sorted(p.items()):
            for other, b in second:
                give(found, tuple(sorted(one + other)), times(a, b))
        return short(found)

    def range(self, p: Polynomial) -> Interval:
        """What the polynomial may be over the space."""
        self.take(len(p))
        found = NOUGHT
        for monomial, coefficient in sorted(p.items()):
            found = plus(found, times(coefficient, self.range_of(monomial)))
        return found

    def range_of(self, monomial: Monomial) -> Interval:
        found, at = ONE, 0
        while at < len(monomial):
            d = self.apart[monomial[at]]
            is_square = monomial[at:at + 2] == (monomial[at],) * 2
            found = times(found, square(d) if is_square else d)
            at += 1 + is_square
        return found

    # ---- terms
    def term(self, number: int) -> Polynomial:
        """The polynomial of a term; each subterm's is made once."""
        for it in self.graph.terms.below(number):
            if it not in self.known:
                self.known[it] = short(self.subterm(*self.graph.terms.parts[it]))
        return self.known[number]

    def subterm(self, kind: str, *parts) -> Polynomial:
        if kind == 'constant':
            return {(): rounded(parts[0])}
        if kind == 'variable':
            middle = self.middles[parts[0]]
            return {(): (middle, middle), (parts[0],): ONE}
        of = [self.known[it] for it in parts]
        if kind == 'minus':
            return negated(of[0])
        return self.sum(*of) if kind == 'plus' else self.product(of[0], of[-1])

    # ---- blocks
    def block(self, block: Block) -> Polynomial:
        """What is at least 0 over the space."""
        found: Polynomial = {}
        for at, row in enumerate(block.rows):
            root: Polynomial = {}
            for monomial, number in zip(block.monomials[at:], row):
                if number:
                    give(root, monomial, (number, number))
            found = self.sum(found, self.product(root, root))
        if block.factor is None:
            return found
        axis, most = block.factor, square(self.apart[block.factor])[1]
        if most >= INFINITE:
            raise TooLarge
        return self.product({(): (most, most), (axis, axis): (-UNIT, -UNIT)}, found)


def give(p: Polynomial, monomial: Monomial, amount: Interval) -> None:
    before = p.get(monomial)
    p[monomial] = amount if before is None else plus(before, amount)


def negated(p: Polynomial) -> Polynomial:
    return {monomial: minus(coefficient) for monomial, coefficient in p.items()}


def short(p: Polynomial) -> Polynomial:
    """The polynomial, where no monomial has too many factors."""
    if any(len(it) > MOST_FACTORS for it in p):
        raise TooLarge
    return p


def is_positive(graph: Graph, space: Space, pairs: Sequence[Pair], blocks: Sequence[Block]) -> bool:
    """Whether the combination without the blocks is above what its atoms allow."""
    numbers = 1 + 2 * len(pairs) + sum(it.count() for it in blocks)
    if numbers > MOST_NUMBERS or not all(it.is_well_formed() for it in blocks):
        return False
    over, rest, allowed = Expander(graph, space), {}, NOUGHT
    try:
        for term, multiplier, kept in reversed(pairs):
            by = multiplier, multiplier
            rest = over.sum(rest, over.product({(): by}, over.term(term)))
            allowed = plus(allowed, times(by, kept))
        for it in blocks:
            rest = over.sum(rest, negated(over.block(it)))
        return over.range(rest)[0] > allowed[1]
    except TooLarge:
        return False
