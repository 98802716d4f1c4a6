"""Scripts that were written for z3 (`Solver.to_smt2()`) or dReal, in the language of `dpoly`."""
from __future__ import annotations

import re
from dataclasses import dataclass
from fractions import Fraction
from typing import Callable, Dict, List, Optional, Sequence, Tuple

from .approx import ERROR, FUNCTIONS, choice_of_pieces, enclosed
from .approx import FINEST as FINEST_ERROR
from .ranges import WHOLE, Interval, bound_texts, forward, implied_bounds, propagated
from .script import text_of
from .smtlib import SORTS, Code, ConversionError, Declared, Defined, Functions, Group, Scope, Token, Tree, Writer, fault, is_word, label_of, number_of, plain, trees
from .terms import Operation, spelled
from .values import Graph, TooDear

__all__ = ["Conversion", "ConversionError", "convert"]
FINEST = Fraction(1, 2**30)
"""The least delta that the program takes."""


@dataclass(frozen=True)
class Conversion:
    """`text` is the script in the program's language. Where the script asks for a precision, `delta_bits` (and `margin_bits`,
    where its default is not above that) are options that give at least this precision. `enclosed` names the functions that stand
    there as polynomials with a remainder: an unsat holds of the script itself, a point is one of the enclosure."""

    text: str
    delta_bits: Optional[int] = None
    margin_bits: Optional[int] = None
    enclosed: Tuple[str, ...] = ()

    @property
    def options(self) -> List[str]:
        """The options for the command line."""
        words = [("--delta-bits", self.delta_bits), ("--margin-bits", self.margin_bits)]
        return [it for word, bits in words if bits is not None for it in (word, str(bits))]


def convert(text: str) -> Conversion:
    """The script in the program's language: bounds of declarations, and those that follow from the assertions, as assertions,
    whole powers as products of named squares, `abs`, `min` and `max` as choices, `sin`, `exp` and others as polynomials with a
    remainder, decimals with an exponent as fractions, the precision as the delta to ask for. What the program reads stays as it is.
    A name that the script declares, defines or binds is that, whatever it is elsewhere. Raises `ConversionError`, with the place,
    for what has no counterpart."""
    return Converter(text).whole()


def commands_of(text: str) -> List[Tree]:
    """The expressions of a script, up to `(exit)`."""
    found: List[Tree] = []
    for tree in trees(text):
        found.append(tree)
        if isinstance(tree, Group) and len(tree.items) == 1 and tree.head == "exit":
            break
    return found


def labels_in_use(commands: Sequence[Tree]) -> Dict[str, Tree]:
    """The labels of `:named` that occur as names too."""
    labels, uses, left = {}, set(), list(commands)
    while left:
        tree = left.pop()
        if isinstance(tree, Token):
            if tree.symbol is not None:
                uses.add(tree.symbol)
            continue
        is_label = False
        for it in tree.items:
            if is_label and isinstance(it, Token) and it.symbol is not None:
                labels[it.symbol] = tree
            else:
                left.append(it)
            is_label = is_word([it], ":named")
    return {name: tree for name, tree in labels.items() if name in uses}


class Enclosures(Functions):
    """Functions as polynomials of arguments whose bounds are known (`approx.py`). `error` bounds each remainder, a constant that
    `declared` has the lines for; `bounds` has the bounds of the constants, None while these are looked for."""

    names = frozenset(FUNCTIONS)

    def __init__(self, text: str, bounds: Optional[Dict[str, Interval]]) -> None:
        self.source, self.bounds, self.error = text, bounds, ERROR
        self.declared: List[str] = []
        self.used: Dict[str, int] = {}

    def text(self, name: str, bound: str, code: Code, tree: Tree) -> str:
        if self.bounds is None:
            return bound
        graph = Graph(code)
        interval = forward(graph, {it: self.bounds.get(it, WHOLE) for it in graph.constants()})[graph.root]
        if interval is None or None in interval:
            raise fault(f"{name} has no counterpart where its argument has no bounds: state bounds of the constants in it", tree)
        try:
            pieces = enclosed(name, *interval, self.error)  # type: ignore[arg-type]
        except ValueError as error:
            raise fault(str(error), tree) from None
        most = max(it.error for it in pieces)
        remainder = self.remainder(name)
        self.declared += [f"(declare-const {remainder} Real)", *bound_texts(remainder, (-most, most))]
        argument = Operation(bound)
        found = choice_of_pieces(argument, pieces)
        return text_of(found + Operation(remainder), {bound, remainder})

    def remainder(self, name: str) -> str:
        while True:
            number = self.used.get(name, 0)
            self.used[name] = number + 1
            if f"|{name}({number})|" not in self.source:
                return f"|{name}({number})|"

    def taken(self) -> List[str]:
        """The lines that declare the remainders since the last call."""
        found, self.declared = self.declared, []
        return found


def bounds_of_whole(text: str) -> Dict[str, Interval]:
    """The bounds of the constants in a script with one check and no levels, wherever it states them; none of another script."""
    scout = Converter(text, is_scout=True)
    words = [it.head for it in scout.commands if isinstance(it, Group)]
    if sum(word in ("check-sat", "check-sat-assuming") for word in words) != 1 or {"push", "pop", "reset", "reset-assertions"} & set(words):
        return {}
    scout.whole()
    try:
        return propagated([it for it in scout.asserted if it is not None], scout.reals())
    except TooDear:
        return {}


class Converter:
    def __init__(self, text: str, is_scout: bool = False) -> None:
        self.commands = commands_of(text)
        self.scope = Scope()
        self.labels = labels_in_use(self.commands)
        is_asked = not is_scout and FUNCTIONS.keys() & set(re.findall(r"[a-z]+", text))
        self.enclosures = Enclosures(text, None if is_scout else bounds_of_whole(text) if is_asked else {})
        self.writer = Writer(self.scope, self.labels, self.enclosures)
        self.has_logic = self.has_goal = False
        # the assertions in force, None for one that is too large, and how many there were at each `push`
        self.asserted: List[Optional[Graph]] = []
        self.levels: List[int] = []
        self.precision: Optional[Tuple[int, Optional[int]]] = None

    def whole(self) -> Conversion:
        lines = [line for tree in self.commands for made in [self.command(tree)] for line in [*self.enclosures.taken(), *made]]
        delta = margin = None
        if self.precision is not None:
            delta, margin = self.precision
        return Conversion("\n".join([*lines, ""]), delta, margin, tuple(self.enclosures.used))

    def reals(self) -> List[str]:
        return [it.name for it in self.scope.names.values() if isinstance(it, Declared) and it.sort == "Real"]

    def command(self, tree: Tree) -> List[str]:
        name = tree.head if isinstance(tree, Group) else None
        if not isinstance(tree, Group) or name is None:
            raise fault("a command is wanted here", tree)
        counts, made = COMMANDS.get(name, ((), None))
        if made is None:
            raise fault(f"the command {name} has no counterpart" + HINTS.get(name, ""), tree)
        if counts and len(tree.items) - 1 not in counts:
            raise fault(f"the command {name} has another form", tree)
        return made(self, tree)

    # ---- what takes effect

    def logic(self, tree: Group) -> List[str]:
        name = plain(tree.items[1])
        if self.has_logic:
            raise fault("the logic is set already", tree)
        if name not in ("QF_NRA", "QF_LRA", "QF_NRA_ODE", "ALL"):
            raise fault(f"the logic {name} has no counterpart", tree)
        self.has_logic = True
        return [f"(set-logic {'QF_LRA' if name == 'QF_LRA' else 'QF_NRA'})"]

    def option(self, tree: Group) -> List[str]:
        if not is_word(tree.items[1:2], ":precision"):
            return self.as_it_is(tree)
        precision = number_of(tree.items[2] if len(tree.items) == 3 else tree)
        self.precision = precision_bits(precision, tree)
        self.enclosures.error = max(min(ERROR, precision / 8), FINEST_ERROR)
        return []

    def declaration(self, tree: Group) -> List[str]:
        """`(declare-fun x () Real [0, 10])`, `(declare-const x Real 0 10)` and those without bounds."""
        items = list(tree.items[1:])
        if tree.head == "declare-fun" and len(items) >= 2:
            parameters = items.pop(1)
            if not isinstance(parameters, Group) or parameters.items:
                raise fault("a function with arguments has no counterpart", parameters)
        if len(items) < 2 or not isinstance(items[0], Token):
            raise fault("a declaration has a name and a sort", tree)
        name, sort = name_in(items[0]), sort_in(items[1])
        ends = self.ends(items[2:], tree)
        if ends and sort == "Bool":
            raise fault("a Bool constant has no bounds", tree)
        self.scope.add(Declared(name, sort), tree)
        made = [f"(declare-const {items[0].text} {sort})"]
        if ends is None or ends == WHOLE:
            return made
        low, high = ends
        sides: List[Tuple[object, ...]] = [*([("number", low)] if low is not None else []), ("constant", name), *([("number", high)] if high is not None else [])]
        self.asserted.append(graph_of(Code([*sides, ("apply", "<=", len(sides))])))
        return made + bound_texts(items[0].text, ends)

    def ends(self, items: List[Tree], tree: Group) -> Optional[Interval]:
        """The bounds behind a declaration, `[a, b]` or `a b`; None for an infinite one."""
        if not items:
            return None
        inner = [it for it in items if not (isinstance(it, Token) and it.kind == "bracket")]
        brackets = "".join(it.text for it in items if isinstance(it, Token) and it.kind == "bracket")
        found = self.sides(inner)
        if brackets not in ("", "[,]") or len(found) != 2 or brackets and (not is_word(items[:1], "[") or not is_word(items[-1:], "]")):
            raise fault("bounds are written [a, b]", tree)
        return found[0], found[1]

    def sides(self, items: List[Tree]) -> List[Optional[Fraction]]:
        """The numbers in the items; a sign may stand before one, and `inf` stands for none."""
        found: List[Optional[Fraction]] = []
        sign = 1
        for it in items:
            if is_word([it], "-") or is_word([it], "+"):
                sign = -1 if is_word([it], "-") else 1
                continue
            if isinstance(it, Token) and it.text.lstrip("+-") in ("inf", "infinity", "oo"):
                found.append(None)
            else:
                found.append(sign * number_of(it))
            sign = 1
        return found

    def definition(self, tree: Group) -> List[str]:
        name, listed, sort, body = tree.items[1:]
        parameters = self.parameters(listed)
        written = self.writer.write(body, sort_in(sort), parameters)
        self.scope.add(Defined(name_in(name), written.sort, tuple(it for _, it in parameters), written.code), tree)
        return [f"(define-fun {plain(name)} {plain(listed)} {written.sort} {written.text})"]

    def parameters(self, listed: Tree) -> List[Tuple[Token, str]]:
        if not isinstance(listed, Group):
            raise fault("the parameters of a definition are a list", listed)
        for it in listed.items:
            if not isinstance(it, Group) or len(it.items) != 2 or not isinstance(it.items[0], Token):
                raise fault("a parameter has a name and the sort Real or Bool", it)
        return [(it.items[0], sort_in(it.items[1])) for it in listed.items]  # type: ignore[union-attr, misc]

    def named_constant(self, tree: Group) -> List[str]:
        """`(define-const c Real t)` of z3."""
        name, sort, body = tree.items[1:]
        written = self.writer.write(body, sort_in(sort))
        self.scope.add(Defined(name_in(name), written.sort, (), written.code), tree)
        return [f"(define-fun {plain(name)} () {written.sort} {written.text})"]

    def assertion(self, tree: Group) -> List[str]:
        term, label = label_of(tree.items[1])
        written = self.writer.write(term if label else tree.items[1], "Bool")
        self.asserted.append(graph_of(written.code))
        if label is None or label.symbol not in self.labels:
            return [f"(assert {written.text})"]
        self.scope.add(Defined(name_in(label), "Bool", (), written.code), label)
        return [f"(define-fun {label.text} () Bool {written.text})", f"(assert {label.text})"]

    def goal(self, tree: Group) -> List[str]:
        if self.has_goal:
            raise fault("a script has one minimize", tree)
        self.has_goal = True
        return [f"(minimize {self.writer.write(tree.items[1], 'Real').text})"]

    def check(self, tree: Group) -> List[str]:
        return [*self.implied(), plain(tree)]

    def implied(self) -> List[str]:
        """Bounds that follow from the assertions, for constants for which they state none."""
        known = [it for it in self.asserted if it is not None]
        used = {name for it in known for name in it.constants()}
        found = implied_bounds(known, [it for it in self.reals() if it in used])
        return [line for name, bounds in found.items() for line in bound_texts(spelled(name), bounds)]

    def assumed(self, tree: Group) -> List[str]:
        listed = tree.items[1]
        if not isinstance(listed, Group):
            raise fault("the assumptions are a list", listed)
        terms = [self.writer.write(it, "Bool").text for it in listed.items]
        return [*self.implied(), f"(check-sat-assuming ({' '.join(terms)}))"]

    def values(self, tree: Group) -> List[str]:
        listed = tree.items[1]
        if not isinstance(listed, Group) or not listed.items:
            raise fault("get-value has a list of terms", tree)
        return [f"(get-value ({' '.join(self.writer.write(it, None).text for it in listed.items)}))"]

    def levels(self, tree: Group) -> List[str]:
        count = level_count(tree)
        if tree.head == "push":
            self.scope.push(count, tree)
            self.levels += [len(self.asserted)] * count
        elif count:
            self.scope.pop(count, tree)
            del self.asserted[self.levels[-count] :], self.levels[-count:]
        return [f"({tree.head} {count})"]

    def emptied(self, tree: Group) -> List[str]:
        self.scope.reset()
        self.asserted, self.levels = [], []
        self.has_logic = self.has_logic and tree.head != "reset"
        return [plain(tree)]

    def said(self, tree: Group) -> List[str]:
        if not isinstance(tree.items[1], Token) or tree.items[1].kind != "string":
            raise fault("echo has a string", tree)
        return [plain(tree)]

    def as_it_is(self, tree: Group) -> List[str]:
        left: List[Tree] = [tree]
        while left:
            it = left.pop()
            if isinstance(it, Group):
                left += reversed(it.items)
            elif it.kind == "bracket":
                raise fault(f"{it.text} has no place here", it)
            elif it.kind == "number" and not it.text.replace(".", "").isdigit():
                raise fault("a literal with an exponent has no place here", it)
        return [plain(tree)]


# the numbers of arguments (none: any), and the method
COMMANDS: Dict[str, Tuple[Tuple[int, ...], Callable[[Converter, Group], List[str]]]] = {
    "set-logic": ((1,), Converter.logic),
    "set-option": ((), Converter.option),
    "declare-fun": ((), Converter.declaration),
    "declare-const": ((), Converter.declaration),
    "define-fun": ((4,), Converter.definition),
    "define-const": ((3,), Converter.named_constant),
    "assert": ((1,), Converter.assertion),
    "minimize": ((1,), Converter.goal),
    "check-sat": ((0,), Converter.check),
    "check-sat-assuming": ((1,), Converter.assumed),
    "push": ((0, 1), Converter.levels),
    "pop": ((0, 1), Converter.levels),
    "reset": ((0,), Converter.emptied),
    "reset-assertions": ((0,), Converter.emptied),
    "get-value": ((1,), Converter.values),
    "get-model": ((0,), Converter.as_it_is),
    "get-info": ((), Converter.as_it_is),
    "set-info": ((), Converter.as_it_is),
    "echo": ((1,), Converter.said),
    "exit": ((0,), Converter.as_it_is),
}
HINTS = {
    "maximize": ": write (minimize (- t)); the greatest value of t is the opposite of its least",
    "get-unsat-core": ": dpoly-smt answers it",
    "get-unsat-assumptions": ": dpoly-smt answers it",
}


def precision_bits(precision: Fraction, tree: Tree) -> Tuple[int, Optional[int]]:
    """The bits of delta, and of the margin where its default is not above that, which give at least this precision."""
    if precision <= 0:
        raise fault("a precision has to be above 0", tree)
    if precision < FINEST:
        raise fault("a precision below 2^-30 is finer than the program's", tree)
    delta = next(bits for bits in range(1, 31) if Fraction(1, 2**bits) <= precision)
    return delta, delta + 10 if delta >= 20 else None


def graph_of(code: Code) -> Optional[Graph]:
    try:
        return Graph(code)
    except TooDear:
        return None


def level_count(tree: Group) -> int:
    """The number of `(push n)` or `(pop n)`; 1 where it is left out."""
    if len(tree.items) == 1:
        return 1
    token = tree.items[1]
    if not isinstance(token, Token) or token.kind != "number" or not token.text.isdigit() or len(token.text) > 9:
        raise fault(f"{tree.head} has a number of levels", tree)
    return int(token.text)


def name_in(tree: Tree) -> str:
    name = tree.symbol if isinstance(tree, Token) else None
    if name is None:
        raise fault("a name is wanted here", tree)
    return name


def sort_in(tree: Tree) -> str:
    name = tree.symbol if isinstance(tree, Token) else None
    if name not in SORTS:
        raise fault(f"the sort {plain(tree)} has no counterpart", tree)
    return name
