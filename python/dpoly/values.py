"""Exact values of expressions at a point, by rational arithmetic; nothing here recurses on the depth of a script."""
from __future__ import annotations

from fractions import Fraction
from math import isqrt
from typing import Callable, Dict, Iterator, List, Mapping, Optional, Sequence, Tuple, Union

from .smtlib import Code

Value = Union[Fraction, bool, None]
"""None stands for a value that is not known as a fraction: a root that is irrational, or what nothing defines, as x/0."""
Point = Mapping[str, Union[Fraction, bool]]

MOST_STEPS = 2_000_000
MOST_BITS = 200_000


class TooDear(Exception):
    """The evaluation would take too many steps, or too long numbers."""


class Graph:
    """An expression (or the last operand of one that is not whole) with each `let` and each call replaced by what it stands for; equal parts stand once. The nodes are
    `("number", f)`, `("truth", b)`, `("constant", name)`, `("power", k, i)` and `(operator, i, ..)` with numbers of nodes before
    them; the last one is the whole. Raises `TooDear` where that takes more than 2,000,000 steps."""

    def __init__(self, code: Optional[Code] = None) -> None:
        self.nodes: List[Tuple] = []
        self.numbers: Dict[Tuple, int] = {}
        self.root = 0 if code is None else self.unfolded(code)

    def make(self, *node: object) -> int:
        if node not in self.numbers:
            self.numbers[node] = len(self.nodes)
            self.nodes.append(node)
        return self.numbers[node]

    def unfolded(self, code: Code) -> int:
        operands: List[int] = []
        frames: List[Tuple[Iterator, List[int]]] = [(iter(code.instructions), [0] * code.slots)]
        for _ in range(MOST_STEPS):
            running, slots = frames[-1]
            word, *rest = next(running, ("end",))
            if word == "end":
                frames.pop()
                if not frames:
                    return operands[-1]
            elif word == "slot":
                operands.append(slots[rest[0]])
            elif word == "store":
                slots[rest[0]] = operands.pop()
            elif word == "call":
                inner, count = rest[0].code, len(rest[0].parameters)
                frames.append((iter(inner.instructions), taken(operands, count) + [0] * (inner.slots - count)))
            elif word == "power":
                operands.append(self.make("power", rest[0], operands.pop()))
            elif word == "apply":
                operands.append(self.make(rest[0], *taken(operands, rest[1])))
            else:
                operands.append(self.make(word, rest[0]))
        raise TooDear("the expression is too large")

    def constants(self) -> List[str]:
        """The constants that occur, in the order of their first occurrence."""
        return [it[1] for it in self.nodes if it[0] == "constant"]

    def values(self, point: Point) -> List[Value]:
        """The values of all nodes at a point."""
        found: List[Value] = []
        for word, *rest in self.nodes:
            if word in ("number", "truth"):
                found.append(rest[0])
            elif word == "constant":
                found.append(point.get(rest[0]))
            elif word == "power":
                found.append(power(found[rest[1]], rest[0]))
            else:
                found.append(limited(applied(word, [found[it] for it in rest])))
        return found

    def value(self, point: Point) -> Value:
        return self.values(point)[self.root]

    def conjuncts(self) -> List[int]:
        """The nodes that have to hold where the whole does: those below `and` alone."""
        found, left = [], [self.root]
        while left:
            node = left.pop()
            if self.nodes[node][0] == "and":
                left += reversed(self.nodes[node][1:])
            else:
                found.append(node)
        return found


def taken(operands: List[int], count: int) -> List[int]:
    """The last operands, which are taken away."""
    found = operands[len(operands) - count :]
    del operands[len(operands) - count :]
    return found


def limited(value: Value) -> Value:
    if isinstance(value, Fraction) and max(value.numerator.bit_length(), value.denominator.bit_length()) > MOST_BITS:
        raise TooDear("numbers of more than 200,000 bits")
    return value


def power(base: Value, exponent: int) -> Value:
    if base is None:
        return None
    if max(base.numerator.bit_length(), base.denominator.bit_length()) * exponent > MOST_BITS:  # type: ignore[union-attr]
        raise TooDear("numbers of more than 200,000 bits")
    return Fraction(base) ** exponent


def root(value: Value) -> Value:
    """The square root, where it is a fraction."""
    if value is None or value < 0:
        return None
    above, below = isqrt(value.numerator), isqrt(value.denominator)  # type: ignore[union-attr]
    exact = above * above == value.numerator and below * below == value.denominator  # type: ignore[union-attr]
    return Fraction(above, below) if exact else None


def applied(operator: str, values: Sequence[Value]) -> Value:
    """The value of an operator. `and`, `or`, `ite` and a comparison need not know all arguments."""
    if operator == "ite":
        condition, then, otherwise = values
        if condition is None:
            return then if then is not None and then == otherwise else None
        return then if condition else otherwise
    if operator in ("and", "or"):
        decided = operator == "or"
        return decided if decided in values else None if None in values else not decided
    if operator == "=>":
        return applied("or", [*(None if it is None else not it for it in values[:-1]), values[-1]])
    if operator in COMPARISONS:
        return chained(operator, values)
    return None if None in values else OPERATIONS[operator](*values)


COMPARISONS: Dict[str, Callable[..., bool]] = {
    "=": lambda a, b: a == b,
    "<=": lambda a, b: a <= b,
    "<": lambda a, b: a < b,
    ">=": lambda a, b: a >= b,
    ">": lambda a, b: a > b,
}


def chained(operator: str, values: Sequence[Value]) -> Optional[bool]:
    found = [None if a is None or b is None else COMPARISONS[operator](a, b) for a, b in zip(values, values[1:])]
    return False if False in found else None if None in found else True


def product(*values: Fraction) -> Fraction:
    found = Fraction(1)
    for it in values:
        found *= it
        limited(found)
    return found


def quotient(first: Fraction, *divisors: Fraction) -> Optional[Fraction]:
    return None if 0 in divisors else first / product(*divisors)


OPERATIONS: Dict[str, Callable[..., Value]] = {
    "+": lambda *values: sum(values, Fraction(0)),
    "-": lambda first, *rest: first - sum(rest, Fraction(0)) if rest else -first,
    "*": product,
    "/": quotient,
    "not": lambda a: not a,
    "xor": lambda *values: sum(values) % 2 == 1,
    "distinct": lambda *values: len(set(values)) == len(values),
    "sqrt": root,
    "abs": abs,
    "min": min,
    "max": max,
}


def text_of_value(value: Union[Fraction, bool]) -> str:
    """How SMT-LIB writes a value."""
    if isinstance(value, bool):
        return "true" if value else "false"
    size = f"{abs(value.numerator)}.0"
    if value.denominator != 1:
        size = f"(/ {size} {value.denominator}.0)"
    return size if value >= 0 else f"(- {size})"


# ---------------------------------------------------------------- Points that satisfy exactly
ROUNDINGS = (None, 1, 2, 4, 10, 100, 1000, 10**6)
"""To fractions with a denominator up to this; None: as it is."""


def holds(graphs: Sequence[Graph], point: Point) -> bool:
    return all(it.value(point) is True for it in graphs)


def exact_point(graphs: Sequence[Graph], near: Point) -> Optional[Dict[str, Union[Fraction, bool]]]:
    """A point at which all of the expressions hold, exactly: the given one, or one near it whose values are simple fractions, and
    for which equations that are linear in a constant give its value. None where no such point is found."""
    for most in ROUNDINGS:
        point = {name: it if isinstance(it, bool) or most is None else it.limit_denominator(most) for name, it in near.items()}
        try:
            if holds(graphs, point):
                return point
            if follow_equations(graphs, point) and holds(graphs, point):
                return point
        except TooDear:
            continue
    return None


def follow_equations(graphs: Sequence[Graph], point: Dict[str, Union[Fraction, bool]]) -> bool:
    """Changes the point so that the equations hold, one after the other: each gives a value to a constant in which it is linear
    and that no equation before it has. Whether something changed."""
    seen, changed, steps = set(), False, 0
    for graph in graphs:
        for node in graph.conjuncts():
            steps += len(graph.nodes)
            if steps > MOST_STEPS:
                raise TooDear("too many equations")
            word, *sides = graph.nodes[node]
            if word != "=" or len(sides) != 2:
                continue
            names = [it for it in constants_below(graph, node) if not isinstance(point.get(it), bool)]
            values = graph.values(point)
            if isinstance(values[sides[0]], Fraction) and isinstance(values[sides[1]], Fraction) and values[sides[0]] != values[sides[1]]:
                changed = any(solved(graph, sides, it, point) for it in names if it not in seen) or changed
            seen.update(names)
    return changed


def constants_below(graph: Graph, node: int) -> List[str]:
    found, left, seen = [], [node], set()
    while left:
        at = left.pop()
        if at in seen:
            continue
        seen.add(at)
        word, *rest = graph.nodes[at]
        if word == "constant":
            found.append(rest[0])
        elif word not in ("number", "truth"):
            left += rest[1:] if word == "power" else rest
    return found


def solved(graph: Graph, sides: List[int], name: str, point: Dict[str, Union[Fraction, bool]]) -> bool:
    """Gives a constant the value with which an equation holds that is linear in it; whether that was so."""
    before, found = point[name], []
    for trial in (Fraction(0), Fraction(1), Fraction(2)):
        point[name] = trial
        values = graph.values(point)
        left, right = values[sides[0]], values[sides[1]]
        found.append(None if left is None or right is None else left - right)
    point[name] = before
    if None in found or found[2] - found[1] != found[1] - found[0] or found[1] == found[0]:
        return False
    point[name] = -found[0] / (found[1] - found[0])
    return True
