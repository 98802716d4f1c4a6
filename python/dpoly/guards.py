"""Square roots under a condition, written with their guard.

The program has no point where a root is asked of a negative number, wherever the root stands: `If(x >= 0, Sqrt(x), 0)` would
exclude each negative x. So a root that stands under conditions alone, and whose argument t the bounds do not keep from being
negative, is written as a constant of its own, r, with 0 <= r <= u and `r * r == If(t >= 0, t, 0)`: the root where there is one,
and 0 where t is negative."""
from __future__ import annotations

from fractions import Fraction
from typing import Dict, List, Optional, Sequence, Set, Tuple

from .ranges import WHOLE, Empty, Interval, asserted_bounds, forward, is_at_least, meet, root_range
from .terms import Bool, Constant, Expression, Formula, Operation, Real, Term, choice_of, nodes_below, upward
from .values import Graph


def leaf_of(node: Expression) -> tuple:
    if isinstance(node, Constant):
        return "number", node.value
    if isinstance(node, (Real, Bool)):
        return "constant", node.name
    return "truth", node.symbol == "true"


def unconditional(asserted: Sequence[Formula], numbers: Dict[int, int]) -> Set[int]:
    """The roots, by their numbers, that stand in a conjunct without a condition before them."""
    found: Set[int] = set()
    left, seen = list(asserted), set()
    while left:
        node = left.pop()
        if id(node) in seen:
            continue
        seen.add(id(node))
        if node.symbol == "sqrt":
            found.add(numbers[id(node)])
        if node.symbol == "and" or node.symbol != "ite" and node.arguments and isinstance(node.arguments[0], Term):
            left += node.arguments  # type: ignore[arg-type]
    return found


def guarded(asserted: List[Formula], besides: Sequence[Formula] = (), number: int = 0) -> List[Formula]:
    """The assertions, with guards for the roots that need one; `besides` are others that hold too, and `number` tells several
    questions of one script apart. Raises `ValueError` where such a root has no upper bound."""
    if not any(it.symbol == "sqrt" and it.arguments for it in nodes_below(asserted)):
        return asserted
    everything = [*besides, *asserted]
    numbers, known = numbers_and_ranges(everything)
    plain = unconditional(everything, numbers)
    made: Dict[int, Expression] = {}
    constants: Dict[int, Real] = {}
    guards: List[Formula] = []
    for node in (it for root in asserted for it in upward(root)):
        if id(node) in made:
            continue
        made[id(node)] = changed = rebuilt(node, [made[id(it)] for it in node.arguments])
        at = numbers[id(node)]
        if node.symbol == "sqrt" and node.arguments and at not in plain:
            interval = known[numbers[id(node.arguments[0])]] or WHOLE
            if not is_at_least(interval, 0):
                if at not in constants:
                    constants[at] = constant_for(changed.arguments[0], interval, f"root({number}.{len(guards)})", guards)  # type: ignore[arg-type]
                made[id(node)] = constants[at]
    return [*guards, *(made[id(it)] for it in asserted)]  # type: ignore[list-item]


def constant_for(argument: Term, interval: Interval, name: str, guards: List[Formula]) -> Real:
    """A constant that stands for a root; its guard is added."""
    high = root_range(interval)[1]
    if high is None:
        raise ValueError("a square root under a condition has no upper bound: give the constants in it bounds")
    found = Real(name, 0, Fraction(-(-high.numerator // high.denominator)))
    guards.append(found * found == choice_of(argument >= 0, argument, 0))
    return found


def numbers_and_ranges(asserted: Sequence[Formula], besides: Sequence[Term] = ()) -> Tuple[Dict[int, int], List[Optional[Interval]]]:
    """A number for each node of the assertions and of some terms, by its identity, the same for equal ones, and their ranges by the
    bounds of the constants, their own and those that are asserted."""
    graph, numbers = Graph(), {}
    bounds: Dict[str, Interval] = {}
    for node in (it for root in (*asserted, *besides) for it in upward(root)):
        parts = [numbers[id(it)] for it in node.arguments]
        numbers[id(node)] = graph.make(node.symbol, *parts) if parts else graph.make(*leaf_of(node))
        if isinstance(node, Real):
            bounds[node.name] = (node.low, node.high)
    graph.root = graph.make("and", *(numbers[id(it)] for it in asserted))
    try:
        for name, interval in asserted_bounds([graph]).items():
            bounds[name] = meet(bounds.get(name, WHOLE), interval)
    except Empty:
        pass
    return numbers, forward(graph, bounds)


def whole_range(term: Term, asserted: Sequence[Formula]) -> Tuple[int, int]:
    """Whole numbers between which a term lies, by the bounds of its constants. Raises `ValueError` where there are none."""
    numbers, known = numbers_and_ranges(asserted, [term])
    low, high = known[numbers[id(term)]] or WHOLE
    if low is None or high is None:
        raise ValueError("this goal has no bounds by those of its constants: give these nearer ones")
    return low.numerator // low.denominator, -(-high.numerator // high.denominator)


def rebuilt(node: Expression, arguments: List[Expression]) -> Expression:
    if all(a is b for a, b in zip(node.arguments, arguments)):
        return node
    return (Formula if isinstance(node, Formula) else Operation)(node.symbol, arguments)
