"""Ranges of terms and constants by intervals with exact ends, rounded outward where these get long (interval constraint
propagation, HC4: Benhamou, Goualard, Granvilliers, Puget, ICLP 1999)."""
from __future__ import annotations

from fractions import Fraction
from math import isqrt
from typing import Callable, Dict, Iterator, List, Optional, Sequence, Set, Tuple

from .terms import Constant
from .values import Graph, TooDear

Interval = Tuple[Optional[Fraction], Optional[Fraction]]
"""The lower and the upper end; None is an infinite one."""
WHOLE: Interval = (None, None)
LONG = 128
GRID = 2**20
"""Bounds that are written are multiples of 1/GRID, as far as they go."""
MOST_BOUND = 2**32
ROUNDS = 12
Side = Tuple[int, str]
"""The lower (0) or upper (1) bound of a constant."""


class Empty(Exception):
    """No point is left."""


def shortened(interval: Interval) -> Interval:
    """The interval, with an end of many digits rounded outward."""
    low, high = interval
    if low is not None and low.numerator.bit_length() + low.denominator.bit_length() > 2 * LONG:
        low = rounded_down(low)
    if high is not None and high.numerator.bit_length() + high.denominator.bit_length() > 2 * LONG:
        high = -rounded_down(-high)
    return low, high


def rounded_down(value: Fraction) -> Fraction:
    """A fraction that is not above the value and near it, of some LONG bits."""
    shift = LONG - (value.numerator.bit_length() - value.denominator.bit_length())
    scaled = value * Fraction(2) ** shift
    return Fraction(scaled.numerator // scaled.denominator) / Fraction(2) ** shift


def meet(a: Interval, b: Interval) -> Interval:
    """What two intervals have in common. Raises `Empty` where that is nothing."""
    low = a[0] if b[0] is None else b[0] if a[0] is None else max(a[0], b[0])
    high = a[1] if b[1] is None else b[1] if a[1] is None else min(a[1], b[1])
    if low is not None and high is not None and low > high:
        raise Empty
    return low, high


def hull(a: Interval, b: Interval) -> Interval:
    low = None if a[0] is None or b[0] is None else min(a[0], b[0])
    return low, None if a[1] is None or b[1] is None else max(a[1], b[1])


def minus(a: Interval) -> Interval:
    return None if a[1] is None else -a[1], None if a[0] is None else -a[0]


def plus(*parts: Interval) -> Interval:
    low = None if any(it[0] is None for it in parts) else sum((it[0] for it in parts), Fraction(0))  # type: ignore[misc]
    high = None if any(it[1] is None for it in parts) else sum((it[1] for it in parts), Fraction(0))  # type: ignore[misc]
    return low, high


def times(a: Interval, b: Interval) -> Interval:
    if a == (0, 0) or b == (0, 0):
        return Fraction(0), Fraction(0)
    if None not in a and None not in b:
        ends = [x * y for x in a for y in b]  # type: ignore[operator]
        return min(ends), max(ends)
    # with infinite ends: the sign of each side decides
    if is_at_least(a, 0) and is_at_least(b, 0):
        return a[0] * b[0], None if a[1] is None or b[1] is None else a[1] * b[1]  # type: ignore[operator]
    for x, y in ((a, b), (b, a)):
        if is_at_least(minus(x), 0):
            return minus(times(minus(x), y))
    for x, y in ((a, b), (b, a)):
        if is_at_least(x, 0) and x[1] is not None:
            low = None if y[0] is None else min(y[0] * x[0], y[0] * x[1])  # type: ignore[operator]
            return low, None if y[1] is None else max(y[1] * x[0], y[1] * x[1])  # type: ignore[operator]
    return WHOLE


def is_at_least(a: Interval, value: int) -> bool:
    return a[0] is not None and a[0] >= value


def has_nought(a: Interval) -> bool:
    return (a[0] is None or a[0] <= 0) and (a[1] is None or a[1] >= 0)


def over(a: Interval, b: Interval) -> Interval:
    """A quotient; everything where the divisor may be 0."""
    if has_nought(b):
        return WHOLE
    inverse = (Fraction(0) if b[1] is None else 1 / b[1], Fraction(0) if b[0] is None else 1 / b[0])
    return times(a, inverse)


def to_power(a: Interval, exponent: int) -> Interval:
    if exponent == 0:
        return Fraction(1), Fraction(1)
    low, high = (None if it is None else it**exponent for it in a)
    if exponent % 2:
        return low, high
    if is_at_least(a, 0):
        return low, high
    if a[1] is not None and a[1] <= 0:
        return high, low
    return Fraction(0), None if low is None or high is None else max(low, high)


def root_below(value: Fraction, degree: int) -> Fraction:
    """A fraction that is not above the root of a number, and near it."""
    scale = 2**64
    return Fraction(whole_root(value.numerator * scale**degree // value.denominator, degree), scale)


def whole_root(number: int, degree: int) -> int:
    """The greatest whole number whose power is not above the number."""
    if degree == 2:
        return isqrt(number)
    low, high = 0, 1 << (number.bit_length() // degree + 1)
    while low < high:
        middle = (low + high + 1) // 2
        low, high = (middle, high) if middle**degree <= number else (low, middle - 1)
    return low


def root_above(value: Fraction, degree: int) -> Fraction:
    below = root_below(value, degree)
    return below if below**degree == value else below + Fraction(1, 2**64)


def roots(a: Interval, degree: int, enclosure: Interval) -> Interval:
    """What a power leaves to its base, which lies in the enclosure."""
    low, high = a
    if degree % 2:
        ends = [None if it is None else (root_below if (it >= 0) == is_low else root_above)(abs(it), degree) * (1 if it >= 0 else -1) for it, is_low in ((low, True), (high, False))]
        return ends[0], ends[1]
    if high is None:
        return WHOLE
    if high < 0:
        raise Empty
    most = root_above(high, degree)
    least = root_below(low, degree) if low is not None and low > 0 else Fraction(0)
    if is_at_least(enclosure, 0):
        return least, most
    return (-most, -least) if enclosure[1] is not None and enclosure[1] <= 0 else (-most, most)


def root_range(a: Interval) -> Interval:
    """The range of a square root."""
    low = root_below(a[0], 2) if a[0] is not None and a[0] > 0 else Fraction(0)
    return low, None if a[1] is None else root_above(max(a[1], Fraction(0)), 2)


def forward(graph: Graph, constants: Dict[str, Interval]) -> List[Optional[Interval]]:
    """The range of each node; None of one that is Bool, and of a constant that has none."""
    found: List[Optional[Interval]] = []
    for node in graph.nodes:
        found.append(range_of(node, found, constants))
    return found


def range_of(node: Tuple, known: Sequence[Optional[Interval]], constants: Dict[str, Interval]) -> Optional[Interval]:
    word, *rest = node
    if word == "number":
        return rest[0], rest[0]
    if word == "constant":
        return constants.get(rest[0])
    if word == "power":
        base = known[rest[1]]
        return None if base is None else shortened(to_power(base, rest[0]))
    if word == "ite":
        then, otherwise = known[rest[1]], known[rest[2]]
        return None if then is None or otherwise is None else hull(then, otherwise)
    if word not in RANGES or any(known[it] is None for it in rest):
        return None
    if word == "*" and len(rest) == 2 and rest[0] == rest[1]:
        return shortened(to_power(known[rest[0]], 2))  # type: ignore[arg-type]
    return shortened(RANGES[word](*(known[it] for it in rest)))


def product_range(first: Interval, *rest: Interval) -> Interval:
    for it in rest:
        first = times(first, it)
    return first


def absolute(a: Interval) -> Interval:
    if is_at_least(a, 0):
        return a
    negative = minus(a)
    return negative if is_at_least(negative, 0) else (Fraction(0), hull(a, negative)[1])


def least_of(a: Interval, b: Interval) -> Interval:
    highs = [it for it in (a[1], b[1]) if it is not None]
    return hull(a, b)[0], min(highs) if highs else None


RANGES: Dict[str, Callable[..., Interval]] = {
    "+": plus,
    "-": lambda first, *rest: plus(first, *(minus(it) for it in rest)) if rest else minus(first),
    "*": product_range,
    "/": lambda first, *rest: over(first, product_range(*rest)),
    "sqrt": root_range,
    "abs": absolute,
    "min": least_of,
    "max": lambda a, b: minus(least_of(minus(a), minus(b))),
}
COMPARED = {"<=": (True, False), "<": (True, False), ">=": (False, True), ">": (False, True), "=": (True, True)}


def backward(graph: Graph, ranges: List[Optional[Interval]], constants: Dict[str, Interval]) -> None:
    """Narrows the constants by what has to hold. Raises `Empty` where nothing is left."""
    narrowed = list(ranges)

    def keep(node: int, interval: Interval) -> None:
        if narrowed[node] is not None:
            narrowed[node] = shortened(meet(narrowed[node], interval))  # type: ignore[arg-type]

    for node in graph.conjuncts():
        word, *sides = graph.nodes[node]
        for a, b in zip(sides, sides[1:]) if word in COMPARED else ():
            if narrowed[a] is None or narrowed[b] is None:
                continue
            for holds, x, y in ((COMPARED[word][0], a, b), (COMPARED[word][1], b, a)):  # x <= y
                if holds:
                    keep(x, (None, narrowed[y][1]))  # type: ignore[index]
                    keep(y, (narrowed[x][0], None))  # type: ignore[index]
    for node in range(len(graph.nodes) - 1, -1, -1):
        if narrowed[node] is None:
            continue
        word, *rest = graph.nodes[node]
        if word == "constant":
            constants[rest[0]] = meet(constants[rest[0]], narrowed[node])  # type: ignore[arg-type]
        else:
            for child, interval in left_to(word, rest, narrowed[node], ranges):  # type: ignore[arg-type]
                keep(child, interval)


def left_to(word: str, rest: Sequence[int], n: Interval, ranges: Sequence[Optional[Interval]]) -> Iterator[Tuple[int, Interval]]:
    """What a node with the interval `n` leaves to those below it."""
    if word == "power" or word == "*" and len(rest) == 2 and rest[0] == rest[1]:
        exponent, base = (rest[0], rest[1]) if word == "power" else (2, rest[0])
        if exponent:
            yield base, roots(n, exponent, ranges[base])  # type: ignore[arg-type]
    elif word in ("+", "-", "*") and len(rest) <= 64:
        signs = [-1 if word == "-" and (at or len(rest) == 1) else 1 for at in range(len(rest))]
        for at, child in enumerate(rest):
            others = [ranges[it] if sign > 0 else minus(ranges[it]) for other, (it, sign) in enumerate(zip(rest, signs)) if other != at]  # type: ignore[arg-type]
            if word == "*":
                yield child, over(n, product_range(*others)) if others else n  # type: ignore[arg-type]
            else:
                left = plus(n, *(minus(it) for it in others))  # type: ignore[arg-type]
                yield child, left if signs[at] > 0 else minus(left)
    elif word == "/" and len(rest) == 2:
        a, b = ranges[rest[0]], ranges[rest[1]]
        if not has_nought(b):  # type: ignore[arg-type]
            yield rest[0], times(n, b)  # type: ignore[arg-type]
            yield rest[1], over(a, n)  # type: ignore[arg-type]
    elif word == "sqrt":
        yield rest[0], (None if n[0] is None else max(n[0], Fraction(0)) ** 2, None if n[1] is None else n[1] ** 2)
    elif word == "abs" and n[1] is not None:
        yield rest[0], (-n[1], n[1])
    elif word in ("min", "max"):
        for it in rest:
            yield it, (n[0], None) if word == "min" else (None, n[1])


def asserted_bounds(graphs: Sequence[Graph]) -> Dict[str, Interval]:
    """The bounds that conjuncts give to constants by comparing them with numbers."""
    found: Dict[str, Interval] = {}
    for graph in graphs:
        known = forward(graph, {})
        for node in graph.conjuncts():
            word, *sides = graph.nodes[node]
            for a, b in zip(sides, sides[1:]) if word in COMPARED else ():
                for holds, x, y in ((COMPARED[word][0], a, b), (COMPARED[word][1], b, a)):  # x <= y
                    if holds and graph.nodes[x][0] == "constant" and known[y] is not None:
                        give(found, graph.nodes[x][1], (None, known[y][1]))  # type: ignore[index]
                    if holds and graph.nodes[y][0] == "constant" and known[x] is not None:
                        give(found, graph.nodes[y][1], (known[x][0], None))  # type: ignore[index]
    return found


def stated_bounds(graph: Graph) -> Dict[Side, Fraction]:
    """The bounds that one assertion states; none where they cross."""
    try:
        found = asserted_bounds([graph])
    except (Empty, TooDear):
        return {}
    return {(side, name): end for name, ends in found.items() for side, end in enumerate(ends) if end is not None}


def give(found: Dict[str, Interval], name: str, interval: Interval) -> None:
    found[name] = meet(found.get(name, WHOLE), interval)


def propagated(graphs: Sequence[Graph], names: Sequence[str]) -> Dict[str, Interval]:
    """The ranges of Real constants that follow from all of the expressions; where nothing is left, those that were found until
    then."""
    constants = {it: WHOLE for it in names}
    for _ in range(ROUNDS):
        before = dict(constants)
        try:
            for graph in graphs:
                backward(graph, forward(graph, constants), constants)
        except Empty:
            break
        if constants == before:
            break
    return constants


def implied_bounds(graphs: Sequence[Graph], names: Sequence[str]) -> Dict[str, Interval]:
    """The bounds that follow from the expressions for constants for which these state none, on the sides where they state none;
    outward, to multiples of 2^-20. Those that the program would not take are left out."""
    stated: Set[Side] = set().union(*map(stated_bounds, graphs))
    missing = [it for it in names if not {(0, it), (1, it)} <= stated]
    try:
        found = propagated(graphs, names) if missing else {}
    except TooDear:
        return {}
    result: Dict[str, Interval] = {}
    for name in missing:
        low, high = (None if (side, name) in stated else end for side, end in enumerate(found[name]))
        low = None if low is None or abs(low) > MOST_BOUND - 1 else Fraction(low.numerator * GRID // low.denominator, GRID)
        high = None if high is None or abs(high) > MOST_BOUND - 1 else -Fraction(-high.numerator * GRID // high.denominator, GRID)
        if low is not None or high is not None:
            result[name] = low, high
    return result


def bound_texts(symbol: str, bounds: Interval) -> List[str]:
    """The bounds of a constant as assertions in the program's language."""
    low, high = (None if it is None else Constant(it).symbol for it in bounds)
    sides = [it for it in (low, symbol, high) if it is not None]
    return [f"(assert (<= {' '.join(sides)}))"] if len(sides) > 1 else []


def roots_may_fail(graphs: Sequence[Graph]) -> bool:
    """Whether a square root is asked of what the stated bounds do not keep from being negative. The program has no point there."""
    try:
        stated = asserted_bounds(graphs)
    except Empty:
        return False
    for graph in graphs:
        arguments = {node[1] for node in graph.nodes if node[0] == "sqrt"}
        if arguments:
            known = forward(graph, {name: stated.get(name, WHOLE) for name in graph.constants()})
            if any(known[it] is None or not is_at_least(known[it], 0) for it in arguments):  # type: ignore[arg-type]
                return True
    return False
