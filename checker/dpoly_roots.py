"""Square roots, and quotients by terms, for the checker in plain Python (`dpoly_checker.py`):
`rewritten` answers what is in force at a check with constants in their place."""
from __future__ import annotations

from fractions import Fraction
from typing import (Any, Callable, Dict, Iterator, List, NamedTuple, Optional, Sequence, Set, Tuple)

from dpoly_intervals import (INFINITE, LINE, UNIT, Interval, less, minus, plus, quotient, root,
                             rounded, times)
from dpoly_script import (MOST, THEORIES, Axis, Check, Claim, Expression, Named, Names, ScriptFault,
                          Task, digits_at, goal_claim, run)

MOST_SIZE, MOST_TOKENS = 1048576, 4194304
TOO_WIDE = 2**62 + 1  # stands for an end that is not there
# Of a comparison whether the first side is at most the second one, and at least.
COMPARED = {'<=': (True, False), '<': (True, False), '>=': (False, True), '>': (False, True),
            '=': (True, True)}
# The range of a constant or of a tree; None is the empty one.
Range = Optional[Interval]


class Tree(NamedTuple):
    """An expression in which each `let`, each call of a definition and each annotation is replaced
    by what it stands for. Its kind is `leaf` (its value is an expression), `applied` (its value is
    the operator's name), `root` or `quotient`; parts are trees. The class is one number for all
    trees that are the same up to their places. Of a tree it is known whether it is a number, and
    whether an `ite` and a root stand in it; a goal's or an assertion's trees are numbered in the
    order in which they are made."""
    number: int
    kind: str
    value: Any
    at: int
    parts: Tuple[Any, ...]
    of_class: int
    is_number: bool
    has_choice: bool
    has_root: bool


class Asserted(NamedTuple):
    """An assertion or a goal, with its command's place."""
    at: int
    tree: Tree
    is_goal: bool


class Trees:
    """The trees of the assertions and goals in force at a check."""
    def __init__(self, check: Check, script: bytes):
        self.named, self.axes, self.script = check.named, check.axes, script.decode('latin-1')
        self.classes: Dict[Any, int] = {}
        self.asserted: List[Asserted] = []
        self.count = self.size = 0
        self.constants = [self.leaf(Expression('symbol', it.name, it.at)) for it in self.axes]
        for at, expression, is_goal in check.assertions:
            self.command = at
            if is_goal:  # its term alone
                expression = expression.value[1].value[1]
            self.asserted.append(Asserted(at, run(self.unfold(expression, {})), is_goal))

    def make(self, kind: str, value: Any, at: int, parts: Tuple[Tree, ...], key: Any,
             is_number: bool = False) -> Tree:
        whole = (kind, key, *(it.of_class for it in parts))
        of_class = self.classes.setdefault(whole, len(self.classes))
        numbers = is_number
        if kind != 'leaf':
            numbers = kind != 'root' and all(it.is_number for it in parts)
        choice = kind == 'applied' and value == 'ite' or any(it.has_choice for it in parts)
        with_root = kind == 'root' or any(it.has_root for it in parts)
        self.count += 1
        return Tree(self.count - 1, kind, value, at, parts, of_class, numbers, choice, with_root)

    def leaf(self, expression: Expression) -> Tree:
        kind, value, at = expression
        if kind in ('numeral', 'decimal'):
            return self.make('leaf', expression, at, (), (kind, digits_at(self.script, at)), True)
        return self.make('leaf', expression, at, (), (kind, value), value in THEORIES)

    def unfold(self, expression: Expression, local: Dict[str, Tree]) -> Task:
        """A task: the tree of an expression; `local` has those of local names."""
        self.size += 1
        if self.size > MOST_SIZE:
            raise ScriptFault('TooMany', self.command, 'Size')
        kind, value, at = expression
        if kind in ('numeral', 'decimal'):
            return self.leaf(expression)
        (head, *rest), values = (value if kind == 'list' else [expression]), []
        if head.kind == 'reserved':  # `!` or `let`
            inner = dict(local)
            for symbol, bound in (it.value for it in rest[0].value) if head.value == 'let' else ():
                inner[symbol.value] = yield self.unfold(bound, local)
            return (yield self.unfold(rest[0] if head.value == '!' else rest[1], inner))
        for it in rest:
            values.append((yield self.unfold(it, local)))
        named = self.named.get(head.value)
        if head.value in local:
            return local[head.value]
        if not named:
            is_leaf = kind != 'list'
            return self.leaf(expression) if is_leaf else self.operation(head.value, at, values)
        if named.axis is not None:
            return self.constants[named.axis]
        if named.body is None:
            return self.make('root', None, at, tuple(values), None)
        return (yield self.unfold(named.body, dict(zip(named.parameters, values))))

    def operation(self, name: str, at: int, parts: Sequence[Tree]) -> Tree:
        """An operator at its arguments; a divisor that is no number makes a quotient."""
        if name != '/' or all(it.is_number for it in parts[1:]):
            return self.make('applied', name, at, tuple(parts), name)
        result = parts[0]
        for divisor in parts[1:]:
            kind, value = ('applied', name) if divisor.is_number else ('quotient', None)
            result = self.make(kind, value, at, (result, divisor), value)
        return result


def in_order(tree: Tree, seen: Set[int]) -> List[Tree]:
    """The trees below one that are not among the numbers `seen`, parts before wholes, in reading
    order."""
    waiting, found = [(tree, False)], []
    while waiting:
        it, is_left = waiting.pop()
        if is_left:
            found.append(it)
        elif it.number not in seen:
            seen.add(it.number)
            waiting.append((it, True))
            waiting.extend((part, False) for part in reversed(it.parts))
    return found


# ---------------------------------------------------------------- Ranges
Operation = Callable[[Range, Range], Range]


def folded(operation: Operation, first: Range, rest: Sequence[Range]) -> Range:
    for it in rest:
        first = operation(first, it)
    return first


def sum_of(a: Range, b: Range) -> Range:
    return None if a is None or b is None else plus(a, b)


def product_of(a: Range, b: Range) -> Range:
    return None if a is None or b is None else times(a, b)


def difference_of(a: Range, b: Range) -> Range:
    return None if a is None or b is None else less(a, b)


def avoids_nought(a: Range) -> bool:
    return a is None or a[0] > 0 or a[1] < 0


def quotient_of(a: Range, b: Range) -> Range:
    if not avoids_nought(b):
        return LINE
    return None if a is None or b is None else quotient(a, b)


def root_bound(a: Range) -> Optional[int]:
    """The least whole number that is above no root of a number in an interval, and not negative;
    None where it has no upper end."""
    if a is None or a[1] < 0:
        return 0
    return None if a[1] == INFINITE else -(-root((0, a[1]), (0, INFINITE))[1] // UNIT)


OPERATIONS: Dict[str, Operation] = {
    '+': sum_of, '-': difference_of, '*': product_of, '/': quotient_of}


def operator_range(name: str, ranges: Sequence[Range]) -> Range:
    if name == '-' and len(ranges) == 1:
        return None if ranges[0] is None else minus(ranges[0])
    return folded(OPERATIONS[name], ranges[0], ranges[1:]) if name in OPERATIONS else LINE


def enclosure_of(tree: Tree, parts: Sequence[Range], ranges: Dict[str, Range]) -> Range:
    """The enclosure of a tree, by those of its parts and of the declared constants."""
    if tree.kind == 'root':
        high = root_bound(parts[0])
        return 0, INFINITE if high is None else high * UNIT
    if tree.kind == 'quotient':
        return quotient_of(*parts)
    if tree.kind == 'applied':
        return operator_range(tree.value, parts)
    kind, value, _ = tree.value
    return rounded(value) if kind != 'symbol' else ranges.get(value, LINE)


class Bound(NamedTuple):
    """A bound of a constant: an end of the interval in which it lies."""
    name: str
    is_upper: bool
    end: int


class Known(NamedTuple):
    """What a tree is to the bounds: of literals and arithmetic alone with an interval (`known`), a
    Real constant alone with its name (`axis`), or anything else with the bounds that it gives
    (`bounded`)."""
    kind: str
    value: Any


def bounds_in(asserted: Sequence[Asserted], axes: Sequence[Axis]) -> List[Bound]:
    """The bounds that assertions give of constants by conjunctions of comparisons."""
    reals = {it.name for it in axes if it.sort == 'Real'}
    known: Dict[int, Known] = {}
    seen: Set[int] = set()
    for tree in (it for claim in asserted for it in in_order(claim.tree, seen)):
        known[tree.number] = bounding(tree, [known[it.number] for it in tree.parts], reals)
    found: List[Bound] = []
    for claim in asserted:
        of_kind, value = known[claim.tree.number]
        found += value if of_kind == 'bounded' and not claim.is_goal else []
    return found


def bounding(tree: Tree, parts: Sequence[Known], reals: Set[str]) -> Known:
    """What a tree is to the bounds, by what its parts are."""
    if tree.kind == 'leaf' and tree.is_number and tree.value.kind != 'symbol':
        return Known('known', rounded(tree.value.value))
    if tree.kind in ('leaf', 'root'):
        is_axis = tree.kind == 'leaf' and tree.value.value in reals
        return Known('axis', tree.value.value) if is_axis else Known('bounded', [])
    name = '/' if tree.kind == 'quotient' else tree.value
    if name in ('+', '*') and len(parts) == 1:
        return parts[0]
    if name in OPERATIONS:
        if all(it.kind == 'known' for it in parts):
            return Known('known', operator_range(name, [it.value for it in parts]))
        return Known('bounded', [])
    bounds: List[Bound] = []
    if name == 'and':
        bounds = [bound for it in parts if it.kind == 'bounded' for bound in it.value]
    for a, b in zip(parts, parts[1:]) if name in COMPARED else ():
        at_most, at_least = COMPARED[name]
        bounds += bounds_of(a, b) if at_most else []
        bounds += bounds_of(b, a) if at_least else []
    return Known('bounded', bounds)


def bounds_of(a: Known, b: Known) -> List[Bound]:
    """The bounds that `a <= b` gives; an empty interval has no end."""
    if a.kind == 'axis' and b.kind == 'known':
        return [Bound(a.value, True, INFINITE if b.value is None else b.value[1])]
    if a.kind == 'known' and b.kind == 'axis':
        return [Bound(b.value, False, -INFINITE if a.value is None else a.value[0])]
    return []


def declared_ranges(asserted: Sequence[Asserted], axes: Sequence[Axis],
                    bound: Optional[int]) -> Dict[str, Range]:
    """The range of each Real constant: None, and so of all, where the ends of one cross."""
    ends: Dict[Tuple[str, bool], List[int]] = {}
    for name, is_upper, end in bounds_in(asserted, axes):
        ends.setdefault((name, is_upper), []).append(end)
    missing = LINE
    if bound is not None:
        missing = rounded(Fraction(-bound))[0], rounded(Fraction(bound))[1]
    ranges: Dict[str, Range] = {}
    for axis in axes:
        if axis.sort == 'Real':
            low = max(ends.get((axis.name, False), [missing[0]]))
            high = min(ends.get((axis.name, True), [missing[1]]))
            ranges[axis.name] = (low, high) if low <= high else None
    return dict.fromkeys([it.name for it in axes]) if None in ranges.values() else ranges


# ---------------------------------------------------------------- The rewritten script
# An expression, and how many tokens it has.
Spelled = Tuple[Expression, int]


def leaf(kind: str, value: Any, at: int) -> Expression:
    return Expression(kind, value, at)


def numeral(value: int, at: int) -> Expression:
    return leaf('numeral', Fraction(value), at)


def of(at: int, name: str, *parts: Expression) -> Expression:
    return leaf('list', [leaf('symbol', name, at), *parts], at)


def parts_of(units: int, at: int) -> Expression:
    """So many 2^-20ths."""
    part = of(at, '/', numeral(abs(units), at), numeral(2**20, at))
    return of(at, '-', part) if units < 0 else part


class Rewriting:
    """What is asserted at a check, with constants in the place of roots and quotients."""
    def __init__(self, trees: Trees, bound: Optional[int]):
        self.asserted = trees.asserted
        # Of each class that has a constant its name, its first tree, and the ranges of its parts.
        self.table: Dict[int, Tuple[str, Tree, List[Range]]] = {}
        self.spelled: Dict[int, Spelled] = {}
        ranges, seen = declared_ranges(self.asserted, trees.axes, bound), set()
        self.order = [it for claim in self.asserted for it in in_order(claim.tree, seen)]
        memo: Dict[int, Range] = {}
        counts = {'sqrt': 0, 'quotient': 0}
        for tree in self.order:
            of_parts = [memo[it.number] for it in tree.parts]
            memo[tree.number] = enclosure_of(tree, of_parts, ranges)
            is_fresh = tree.kind == 'root' or tree.kind == 'quotient' and stands_alone(tree, memo)
            if is_fresh and tree.of_class not in self.table:
                name = 'sqrt' if tree.kind == 'root' else 'quotient'
                self.table[tree.of_class] = f'|{name}({counts[name]})', tree, of_parts
                counts[name] += 1

    def spell(self, tree: Tree) -> Spelled:
        """The expression of a tree whose parts are spelled, and how many tokens it has."""
        kind, value, at = tree.kind, tree.value, tree.at
        parts = [self.spelled[it.number] for it in tree.parts]
        if tree.of_class in self.table:
            constant = leaf('symbol', self.table[tree.of_class][0], at)
            return of(at, '*', constant, numeral(1, at)), 5
        if kind == 'leaf':
            return value, 1
        return of(at, value or '/', *(it for it, _ in parts)), 3 + sum(count for _, count in parts)

    def claims_of(self, name: str, tree: Tree, ranges: Sequence[Range]) -> Iterator[Spelled]:
        """What is asserted of the constant that stands for a tree."""
        at, c = tree.at, leaf('symbol', name, tree.at)
        parts = [self.spelled[it.number] for it in tree.parts]
        if tree.kind == 'root':
            high = root_bound(ranges[0])
            yield of(at, '>=', c, numeral(0, at)), 5
            yield of(at, '<=', c, numeral(TOO_WIDE if high is None else high, at)), 5
            yield of(at, '=', of(at, '*', c, c), parts[0][0]), 8 + parts[0][1]
            return
        interval = quotient_of(*ranges)
        for comparison, is_upper in ('>=', False), ('<=', True):
            limit, count = limit_of(interval, is_upper, at)
            yield of(at, comparison, c, limit), 4 + count
        yield of(at, '=', of(at, '*', c, parts[1][0]), parts[0][0]), 7 + parts[1][1] + parts[0][1]

    def claims(self) -> Iterator[Tuple[Claim, int]]:
        """All assertions, each with how many tokens it has: first those on the new constants, then
        the script's."""
        for tree in self.order:
            self.spelled[tree.number] = self.spell(tree)
        for name, tree, ranges in self.table.values():
            for expression, count in self.claims_of(name, tree, ranges):
                yield Claim(tree.at, expression, False), count
        for at, tree, is_goal in self.asserted:
            expression, count = self.spelled[tree.number]
            yield (goal_claim(expression, at) if is_goal else Claim(at, expression, False)), count


def limit_of(interval: Range, is_upper: bool, at: int) -> Spelled:
    """An end of the enclosure of a quotient, rounded outward to 2^-20ths."""
    if interval is None:
        return numeral(0, at), 1
    end = interval[is_upper]
    if abs(end) == INFINITE:
        limit = numeral(TOO_WIDE, at)
        return (of(at, '-', limit), 4) if end < 0 else (limit, 1)
    units = -(-end // 2**100) if is_upper else end // 2**100
    limit = parts_of(units, at)
    return (of(at, '-', limit) if end < 0 and not units else limit), 8 if end < 0 else 5


def stands_alone(tree: Tree, memo: Dict[int, Range]) -> bool:
    """Whether a constant can stand for a quotient."""
    dividend, divisor = tree.parts
    if dividend.has_choice or divisor.has_choice or divisor.has_root:
        return False
    return avoids_nought(memo[divisor.number])


def left_out(asserted: Sequence[Asserted]) -> Optional[int]:
    """The place of the first root of an `ite`, or of the first root or quotient of a goal."""
    for claim in asserted:
        trees = in_order(claim.tree, set())
        if claim.is_goal:
            first = first_fresh(claim.tree)
            if first is not None:
                return first
        for tree in trees if not claim.is_goal else ():
            if tree.kind == 'root' and tree.has_choice:
                return tree.at
    return None


def first_fresh(tree: Tree) -> Optional[int]:
    """The place of the first root or quotient in reading order, outer ones first."""
    waiting, seen = [tree], set()
    while waiting:
        it = waiting.pop()
        if it.kind in ('root', 'quotient'):
            return it.at
        if it.number not in seen:
            seen.add(it.number)
            waiting.extend(reversed(it.parts))
    return None


def rewritten(check: Check, script: bytes, bound: Optional[int]) -> Check:
    """What is in force at a check, with constants in the place of roots and quotients; as it is
    where there is neither."""
    trees = Trees(check, script)
    at = left_out(trees.asserted)
    if at is not None:
        raise ScriptFault('LeftOut', at)
    rewriting = Rewriting(trees, bound)
    if not rewriting.table:
        Names(check.commands)  # a root that nothing uses is a name that is not known
        return check._replace(extends=False)
    claims, tokens = [], 0
    for claim, count in rewriting.claims():
        tokens += count
        if tokens > MOST_TOKENS:
            raise ScriptFault('TooMany', claim.at, 'Size')
        claims.append(claim)
    named, axes = {it.name: check.named[it.name] for it in check.axes}, list(check.axes)
    for name, tree, _ in rewriting.table.values():
        if len(axes) == MOST:
            raise ScriptFault('TooMany', tree.at, 'Axes')
        named[name] = Named('Real', len(axes), {}, None)
        axes.append(Axis(name, 'Real', tree.at))
    return Check(named, axes, claims, [], False)
