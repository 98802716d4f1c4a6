"""Enclosures of terms, narrowing by atoms and combinations, for the checker in plain Python
(`dpoly_checker.py`). What each of them is stands in docs/FORMATS.md, "Intervals"; this file has its
order of operations, since each is rounded, and its letters.

`Rows` keeps the enclosure of each subterm and follows the space from one line of a certificate to
the next: what stands above an axis that changed is stale, and is enclosed again when it is asked
for.
"""
from __future__ import annotations

from typing import Callable, Dict, List, NamedTuple, Optional, Sequence, Tuple

from dpoly_intervals import (LINE, NOUGHT, UNIT, End, Interval, down, factor, less, meet, minus,
                             plus, root, root_within, rounded, square, times)
from dpoly_script import Terms

# Of a Real axis its interval, of a Bool axis the least and the greatest truth value.
Domain = Tuple[int, int]
Space = Tuple[Domain, ...]
# The axes that an operation narrows, with what it leaves of them.
Narrowed = Dict[int, Interval]
# A subterm, its kind and its parts: operands, of a variable its axis; the second one may be None.
Step = Tuple[int, str, int, Optional[int]]

ONE: Interval = (UNIT, UNIT)
MOST_KNOWN_ABOVE = 4000000  # subterms in the lists of those above axes, about 32 MB
UNARY: Dict[str, Callable[[Interval], Interval]] = {'minus': minus, 'square': square}
BINARY: Dict[str, Callable[[Interval, Interval], Interval]] = {'plus': plus, 'times': times}


class Graph:
    """The subterms of a problem with what is computed of them once."""
    def __init__(self, terms: Terms):
        self.terms = terms
        self.constants: Dict[int, Interval] = {}  # the enclosures of constants
        self.variables: Dict[int, int] = {}  # of each Real axis that a term has, the variable
        self.parents: List[List[int]] = [[] for _ in terms.parts]
        for number, (kind, *parts) in enumerate(terms.parts):
            if kind == 'constant':
                self.constants[number] = rounded(parts[0])
            elif kind == 'variable':
                self.variables[parts[0]] = number
            else:
                for it in set(parts):
                    self.parents[it].append(number)
        self.known: Dict[int, List[Step]] = {}
        self.known_above: Dict[int, List[int]] = {}
        self.room = MOST_KNOWN_ABOVE

    def step(self, number: int) -> Step:
        kind, *parts = self.terms.parts[number]
        return number, kind, parts[0], parts[1] if len(parts) > 1 else None

    def steps(self, term: int) -> List[Step]:
        """The steps below a term and its own but those of constants, the highest number first."""
        found = self.known.get(term)
        if found is None:
            numbers = reversed(self.terms.below(term))
            found = [self.step(it) for it in numbers if it not in self.constants]
            self.known[term] = found
        return found

    def steps_of_all(self, terms: Sequence[int]) -> List[Step]:
        """The same of several terms together."""
        if len(terms) == 1:
            return self.steps(terms[0])
        return sorted(set().union(*map(self.steps, terms)), reverse=True)


    def above(self, axis: int) -> List[int]:
        """The subterms above an axis, without its variable."""
        found = self.known_above.get(axis)
        if found is None:
            waiting, seen = [self.variables[axis]], set()
            while waiting:
                new = set(self.parents[waiting.pop()]) - seen
                seen |= new
                waiting.extend(new)
            found = sorted(seen)
            if len(found) <= self.room:
                self.room -= len(found)
                self.known_above[axis] = found
        return found


class Rows:
    """The enclosures of the subterms over a space. A subterm is stale where an axis below it has
    changed since it was enclosed. Where one is not, nothing below it is."""
    def __init__(self, graph: Graph):
        self.graph, self.space = graph, None
        count = len(graph.terms.parts)
        self.row: List[Interval] = [graph.constants.get(it, LINE) for it in range(count)]
        self.stale = [kind not in ('constant', 'variable') for kind, *_ in graph.terms.parts]

    def follow(self, space: Space) -> None:
        """Makes this the space."""
        if space is self.space:
            return
        row = self.row
        for axis, variable in self.graph.variables.items():
            if space[axis] is not row[variable]:
                self.set_axis(axis, space[axis])
        self.space = space

    def set_axis(self, axis: int, interval: Interval) -> None:
        """Changes the space at one axis."""
        variable, stale = self.graph.variables[axis], self.stale
        self.space = None
        if self.row[variable] != interval:
            self.row[variable] = interval
            for it in self.graph.above(axis):
                stale[it] = True

    def enclosure(self, term: int) -> Interval:
        """The enclosure of a term; none below it is stale then."""
        row, stale = self.row, self.stale
        if stale[term]:
            for it, kind, a, b in reversed(self.graph.steps(term)):
                if stale[it]:
                    row[it] = UNARY[kind](row[a]) if b is None else BINARY[kind](row[a], row[b])
                    stale[it] = False
        return row[term]


# ---------------------------------------------------------------- Narrowing
def narrowed(rows: Rows, term: int, kept: Interval) -> Optional[Narrowed]:
    """What is left of the axes of an atom by its term and the range that it keeps; None if nothing.
    A subterm that is not narrowed leaves to those below it what they have, so it is passed over."""
    first = meet(rows.enclosure(term), kept)
    if first is None:
        return None
    if first == rows.row[term]:
        return {}
    row, axes = rows.row, {}
    left = {term: first}  # of the subterms that are narrowed
    for number, kind, a, b in rows.graph.steps(term):
        n = left.get(number)
        if n is None:
            continue
        if kind == 'variable':
            axes[a] = n
        elif b is None:
            undone = minus(n) if kind == 'minus' else root(n, row[a])
            if not keep(left, row, a, undone):
                return None
        else:
            undo = less if kind == 'plus' else factor
            if not keep(left, row, a, undo(n, row[b])) or not keep(left, row, b, undo(n, row[a])):
                return None
    return axes


def keep(left: Dict[int, Interval], row: Sequence[Interval], number: int,
         undone: Optional[Interval]) -> bool:
    """Keeps of a subterm what a parent leaves to it; whether that is not empty."""
    before = left.get(number) or row[number]
    after = meet(before, undone)
    if after is None:
        return False
    if after != before:
        left[number] = after
    return True


# ---------------------------------------------------------------- Combinations
class Pair(NamedTuple):
    """An atom's term, its multiplier, and the range that the atom keeps."""
    term: int
    multiplier: End
    kept: Interval


class Part(NamedTuple):
    """An axis in a combination: its coefficients w and k, its difference D, and its number."""
    w: Optional[Interval]
    k: Optional[Interval]
    d: Interval
    axis: int


class Expansion(NamedTuple):
    """Steps 1 and 2 of a combination: the rest R, the allowed range T, and the axes with
    coefficients, in the order of the variables."""
    rest: Interval
    target: Interval
    parts: List[Part]


class Coefficients(Dict[int, Interval]):
    """Those that were given to subterms."""
    def give(self, number: int, amount: Interval) -> None:
        before = self.get(number)
        self[number] = amount if before is None else plus(before, amount)


class Combiner:
    """Combinations over the space of some rows. The rows of the middle follow it too."""
    def __init__(self, rows: Rows):
        self.rows, self.middle, self.constants = rows, Rows(rows.graph), rows.graph.constants
        # The ranges of variables whose middles are in place.
        self.halved: Dict[int, Interval] = {}
        # The constants of the grid: their difference D is 0, so a product with one adds nothing.
        self.exact = {it for it, (low, high) in self.constants.items() if low == high}

    def combined(self, pairs: Sequence[Pair]) -> Optional[Narrowed]:
        """What a combination leaves of the axes; None if nothing."""
        rest, target, axes = self.expansion(pairs)
        parts = [part_of(*it[:3]) for it in axes]
        after = [NOUGHT]  # the sums of the parts from each axis to the last, and the empty sum
        for part in reversed(parts):
            after.append(plus(part, after[-1]))
        after.reverse()
        if meet(plus(rest, after[0]), target) is None:
            return None
        found: Narrowed = {}
        before = rest
        for (w, k, d, axis), part, later in zip(axes, parts, after[1:]):
            left = left_of(w, k, d, less(target, plus(before, later)))
            if left is None:
                return None
            variable = self.rows.graph.variables[axis]
            kept = meet(self.rows.row[variable], plus(self.middle.row[variable], left))
            if kept is None:
                return None
            found[axis] = kept
            before = plus(before, part)
        return found

    def expansion(self, pairs: Sequence[Pair]) -> Expansion:
        rest, target, axes = NOUGHT, NOUGHT, []
        linear, quadratic = Coefficients(), Coefficients()
        steps = self.rows.graph.steps_of_all([it.term for it in pairs])
        self.enclose(pairs, steps)
        enclosed, center = self.rows.row, self.middle.row
        for term, multiplier, kept in reversed(pairs):
            by = (multiplier, multiplier)
            rest = plus(rest, times(by, center[term]))
            target = plus(target, times(by, kept))
            linear.give(term, by)
        for number, kind, a, b in steps:
            w, k = linear.get(number), quadratic.get(number)
            if kind == 'variable':
                if w or k:
                    axes.append(Part(w, k, less(enclosed[number], center[number]), a))
                continue
            if k:
                rest = plus(rest, times(k, square(less(enclosed[number], center[number]))))
            if not w:
                continue
            if kind == 'times' and a not in self.exact and b not in self.exact:
                product = times(less(enclosed[a], center[a]), less(enclosed[b], center[b]))
                rest = plus(rest, scaled(w, product))
            if kind == 'square':
                quadratic.give(a, w)
            self.hand_down(linear, w, kind, a, b)
        return Expansion(rest, target, axes[::-1])

    def enclose(self, pairs: Sequence[Pair], steps: Sequence[Step]) -> None:
        """Encloses the terms of a combination over the space and over its middle."""
        for number, kind, axis, _ in steps:
            if kind == 'variable' and self.rows.row[number] is not self.halved.get(number):
                self.halved[number] = self.rows.row[number]
                middle = down(sum(self.rows.row[number]), 2)
                self.middle.set_axis(axis, (middle, middle))
        for it in pairs:
            self.rows.enclosure(it.term)
            self.middle.enclosure(it.term)

    def hand_down(self, linear: Coefficients, w: Interval, kind: str, a: int,
                  b: Optional[int]) -> None:
        """What a subterm with the coefficient w gives to its operands; constants need none."""
        center, constants = self.middle.row, self.constants
        if kind == 'minus':
            linear.give(a, minus(w))
        elif kind == 'square':
            amount = scaled(w, center[a])
            linear.give(a, amount)
            linear.give(a, amount)
        else:
            for it, other in ((a, b), (b, a)):
                if it not in constants:
                    linear.give(it, w if kind == 'plus' else scaled(w, center[other]))


def scaled(w: Interval, a: Interval) -> Interval:
    """`w * a`; w is 1 as long as sums alone lie between a subterm and its atom."""
    return a if w == ONE else times(w, a)


def bends(k: Optional[Interval]) -> bool:
    """Whether 0 lies outside k + k."""
    return k is not None and meet(plus(k, k), NOUGHT) is None


def part_of(w: Optional[Interval], k: Optional[Interval], d: Interval) -> Interval:
    """Step 3: the part P of an axis."""
    if k is None:
        return times(w, d)
    if w is None:
        return times(k, square(d))
    part = plus(times(w, d), times(k, square(d)))
    h = factor(w, plus(k, k)) if bends(k) else None
    return meet(part, times(k, less(square(plus(d, h)), square(h)))) if h else part


def left_of(w: Optional[Interval], k: Optional[Interval], d: Interval,
            s: Interval) -> Optional[Interval]:
    """Step 4: what is left to the difference of an axis."""
    if k is None:
        return factor(s, w)
    if w is None:
        return root_within(factor(s, k), d)
    left = factor(less(s, times(k, square(d))), w)
    if not bends(k):
        return left
    h = factor(w, plus(k, k))
    r = root_within(plus(square(h), factor(s, k)), plus(d, h))
    return meet(left, less(r, h)) if r else None
