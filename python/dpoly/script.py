"""Formulas as an SMT-LIB script that the program reads."""
from __future__ import annotations

from typing import Dict, Iterator, List, Sequence, Set, Tuple, Union

from .guards import guarded, whole_range
from .terms import Bool, Constant, Expression, Formula, Real, Term, formulas_of, nodes_below, upward


def script_of(*formulas: object) -> str:
    """The script that asks whether all of the formulas can hold, within the bounds of their `Real`s. A subterm that occurs
    more than once is written once, in a `let`. Raises `ValueError` where two constants have one name, but other sorts or
    bounds."""
    asserted = guarded(list(conjuncts(formulas_of(formulas))))
    return "\n".join([*lines_of(asserted, asserted), "(check-sat)", ""])


def goal_script_of(goal: Term, *formulas: object) -> Tuple[str, bool]:
    """The script that asks for the least value of the goal where all of the formulas hold, and whether a constant stands for it
    there: the program takes no choice, root or quotient as a goal."""
    asserted, goal_name = list(conjuncts(formulas_of(formulas))), "goal(0)"
    is_named = any(it.symbol in ("ite", "sqrt", "/") and it.arguments for it in nodes_below([goal]))
    if is_named:
        named = Real(goal_name, *whole_range(goal, asserted))
        asserted, goal = [*asserted, named == goal], named
    asserted = guarded(asserted)
    roots = [*asserted, goal]
    return "\n".join([*lines_of(roots, asserted), f"(minimize {text_of(goal, symbols_of(roots))})", "(check-sat)", ""]), is_named


def session_script_of(formulas: Tuple[Formula, ...], questions: Sequence[Tuple[Formula, ...]]) -> str:
    """The script that asks of each question whether its formulas can hold together with the others."""
    asserted = guarded(list(conjuncts(formulas)))
    asked = [guarded(list(conjuncts(it)), asserted, number + 1) for number, it in enumerate(questions)]
    everything = [*asserted, *(it for each in asked for it in each)]
    lines = lines_of(everything, asserted)
    taken = symbols_of(everything)
    for each in asked:
        lines += ["(push 1)", *(f"(assert {text_of(it, taken)})" for it in each), "(check-sat)", "(pop 1)"]
    return "\n".join([*lines, ""])


def steps_script_of(steps: Sequence[Tuple[Sequence[Formula], Sequence[Formula]]]) -> str:
    """A session of checks, each of which has formulas that hold from then on and formulas that are asked of at this one alone. A
    constant is declared at the first step that has it."""
    lines, declared, besides = ["(set-logic QF_NRA)"], set(), []
    for number, (first, second) in enumerate(steps):
        kept = guarded(list(conjuncts(tuple(first))), besides, 2 * number)
        besides = [*besides, *kept]
        asked = guarded(list(conjuncts(tuple(second))), besides, 2 * number + 1)
        new = [it for it in constants_of([*besides, *asked]) if it.symbol not in declared]
        declared |= {it.symbol for it in new}
        lines += declarations_of(new)
        lines += [f"(assert {text_of(it, declared)})" for it in kept]
        lines += ["(push 1)", *(f"(assert {text_of(it, declared)})" for it in asked), "(check-sat)", "(pop 1)"]
    return "\n".join([*lines, ""])


def lines_of(roots: Sequence[Expression], asserted: Sequence[Formula]) -> List[str]:
    """The declarations of all constants of the roots, with their bounds, and the assertions."""
    taken = symbols_of(roots)
    lines = ["(set-logic QF_NRA)", *declarations_of(constants_of(roots))]
    return [*lines, *(f"(assert {text_of(it, taken)})" for it in asserted)]


def declarations_of(constants: Sequence[Union[Real, Bool]]) -> List[str]:
    lines = [f"(declare-const {it.symbol} {'Real' if isinstance(it, Real) else 'Bool'})" for it in constants]
    return lines + [f"(assert {bound})" for it in constants if isinstance(it, Real) for bound in bounds_of(it)]


def names_of(*formulas: object) -> Set[str]:
    """The names of the constants in the formulas."""
    return {it.name for it in constants_of(formulas_of(formulas))}


def symbols_of(roots: Sequence[Expression]) -> Set[str]:
    return {it.symbol for it in constants_of(roots)}


def conjuncts(formulas: Tuple[Formula, ...]) -> Iterator[Formula]:
    """The formulas, each conjunction at the top in its parts."""
    left = list(reversed(formulas))
    while left:
        formula = left.pop()
        if formula.symbol == "and" and formula.arguments:
            left += reversed(formula.arguments)  # type: ignore[arg-type]
        else:
            yield formula


def bounds_of(constant: Real) -> List[str]:
    low = None if constant.low is None else Constant(constant.low).symbol
    high = None if constant.high is None else Constant(constant.high).symbol
    if low is not None and high is not None:
        return [f"(<= {low} {constant.symbol} {high})"]
    return [f"(<= {low} {constant.symbol})"] if low is not None else [f"(<= {constant.symbol} {high})"] if high is not None else []


def constants_of(roots: Sequence[Expression]) -> List[Union[Real, Bool]]:
    """The constants, in the order in which they occur."""
    found: Dict[str, Union[Real, Bool]] = {}
    for node in nodes_below(roots):
        if isinstance(node, (Real, Bool)):
            known = found.setdefault(node.symbol, node)
            if known is not node and kind_of(known) != kind_of(node):
                raise ValueError(f"two constants are named {node.name!r}, and they have other sorts or bounds")
    return list(found.values())


def kind_of(constant: Union[Real, Bool]) -> object:
    return (constant.low, constant.high) if isinstance(constant, Real) else "Bool"


def text_of(root: Expression, taken: Set[str]) -> str:
    """The expression as text. What occurs more than once is bound in `let`s, those that stand on others inside."""
    uses: Dict[int, int] = {}
    for node in nodes_below([root]):
        for it in node.arguments:
            uses[id(it)] = uses.get(id(it), 0) + 1
    names: Dict[int, str] = {}
    levels: List[List[str]] = []
    level_of: Dict[int, int] = {}
    texts: Dict[int, str] = {}
    for node in upward(root):
        # (how many levels of bindings stand below the node)
        below = max((level_of[id(it)] for it in node.arguments), default=0)
        parts = [names.get(id(it)) or texts[id(it)] for it in node.arguments]
        text = f"({node.symbol} {' '.join(parts)})" if parts else node.symbol
        if parts and uses.get(id(node), 0) > 1:
            name = fresh(len(names), taken)
            names[id(node)] = name
            levels += [[]] * (below + 1 - len(levels))
            levels[below] = [*levels[below], f"({name} {text})"]
            below += 1
        else:
            texts[id(node)] = text
        level_of[id(node)] = below
    whole = names.get(id(root)) or texts[id(root)]
    for bindings in reversed(levels):
        whole = f"(let ({' '.join(bindings)}) {whole})"
    return whole


def fresh(number: int, taken: Set[str]) -> str:
    """A name for the subterm of that number, none of the constants' names."""
    name = f"t{number}"
    while name in taken:
        name += "_"
    return name
