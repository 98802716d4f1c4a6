"""Terms and formulas, as Python's operators build them. Each is immutable; `script_of` writes them as SMT-LIB."""
from __future__ import annotations

import re
from decimal import Decimal
from fractions import Fraction
from typing import Dict, Iterable, Iterator, List, Mapping, Optional, Sequence, Set, Tuple, Union

Number = Union[int, float, Decimal, Fraction]
"""What stands for a number: each is taken at its exact value, a float too."""

SIMPLE_SYMBOL = re.compile(r"[A-Za-z~!@$%^&*_\-+=<>.?/][A-Za-z0-9~!@$%^&*_\-+=<>.?/]*")
RESERVED = frozenset("! _ as let exists forall match par".split())
THEORY = frozenset("true false not => and or xor = distinct ite + - * / <= < >= > Real Bool".split())
LARGEST = 10**36
"""The largest numerator or denominator that the program reads."""


def fraction_of(number: Number) -> Fraction:
    """The exact value of a number. Raises `TypeError` for what is none (a bool, say), `ValueError` for what is not finite
    or has a numerator or denominator above 10^36, which the program does not read."""
    if isinstance(number, bool) or not isinstance(number, (int, float, Decimal, Fraction)):
        raise TypeError(f"{number!r} is no number: an int, a float, a Decimal or a Fraction is wanted")
    try:
        value = Fraction(number)
    except (OverflowError, ValueError):
        raise ValueError(f"{number!r} is not finite") from None
    if max(abs(value.numerator), value.denominator) > LARGEST:
        raise ValueError(f"{number!r} has a numerator or denominator above 10^36 as a fraction")
    return value


def symbol_of(name: str) -> str:
    """How SMT-LIB spells a name: as it is, or between bars. Raises `ValueError` for a name that has no spelling (it is
    empty, or holds a bar or a backslash) and for a symbol of the theories."""
    if not isinstance(name, str):
        raise TypeError(f"{name!r} is no name")
    if not name or "|" in name or "\\" in name:
        raise ValueError(f"{name!r} cannot be spelled in SMT-LIB: a name is not empty and holds no bar and no backslash")
    if name in THEORY:
        raise ValueError(f"{name!r} is a symbol of SMT-LIB's theories, and no name of a constant")
    return spelled(name)


def spelled(name: str) -> str:
    """The name, between bars where SMT-LIB asks for them."""
    return name if SIMPLE_SYMBOL.fullmatch(name) and name not in RESERVED else f"|{name}|"


class Expression:
    """A term or a formula: an SMT-LIB symbol with arguments, or a leaf without."""

    __slots__ = ("symbol", "arguments")
    symbol: str
    arguments: Tuple["Expression", ...]

    def __init__(self, symbol: str, arguments: Iterable["Expression"] = ()) -> None:
        object.__setattr__(self, "symbol", symbol)
        object.__setattr__(self, "arguments", tuple(arguments))

    def __setattr__(self, name: str, value: object) -> None:
        raise AttributeError("a term or formula does not change")

    __hash__ = object.__hash__

    def __bool__(self) -> bool:
        raise TypeError(
            "a formula is neither true nor false before it is solved: write And(a <= x, x <= b) for a <= x <= b, and And, "
            "Or, Not, If for Python's `and`, `or`, `not`, `if`"
        )

    def __repr__(self) -> str:
        if not self.arguments:
            return f"<{self.symbol}>"
        parts = [it.symbol if not it.arguments else "(..)" for it in self.arguments]
        return f"<({self.symbol} {' '.join(parts)})>"


class Term(Expression):
    """A term over Real constants: polynomials, choices, square roots and quotients of such."""

    __slots__ = ()

    def __add__(self, other: "Operand") -> "Term":
        return joined("+", self, term_of(other))

    def __radd__(self, other: "Operand") -> "Term":
        return joined("+", term_of(other), self)

    def __sub__(self, other: "Operand") -> "Term":
        return joined("+", self, -term_of(other))

    def __rsub__(self, other: "Operand") -> "Term":
        return joined("+", term_of(other), -self)

    def __mul__(self, other: "Operand") -> "Term":
        return joined("*", self, term_of(other))

    def __rmul__(self, other: "Operand") -> "Term":
        return joined("*", term_of(other), self)

    def __truediv__(self, other: "Operand") -> "Term":
        """A quotient. Where the divisor is a term, it has to keep away from 0 within the bounds of its constants."""
        divisor = term_of(other)
        if not isinstance(divisor, Constant):
            return Operation("/", [self, divisor])
        if divisor.value == 0:
            raise ZeroDivisionError("division of a term by zero")
        return joined("*", self, Constant(1 / divisor.value))

    def __rtruediv__(self, other: "Operand") -> "Term":
        return term_of(other) / self

    def __neg__(self) -> "Term":
        return Operation("-", [self])

    def __pos__(self) -> "Term":
        return self

    def __abs__(self) -> "Term":
        return choice_of(self >= 0, self, -self)

    def __pow__(self, exponent: Number) -> "Term":
        """A power: a whole one as products of squares that stand once each, a negative one as a quotient, 1/2 as a root."""
        if isinstance(exponent, bool) or not isinstance(exponent, (int, float, Decimal, Fraction)):
            raise TypeError("an exponent has to be a whole number, or 1/2")
        if exponent == Fraction(1, 2):
            return Sqrt(self)
        if exponent != int(exponent):
            raise TypeError("an exponent has to be a whole number, or 1/2")
        whole = abs(int(exponent))
        power: Term = self if whole else Constant(1)
        for bit in bin(whole)[3:]:
            power = Operation("*", [power, power])
            if bit == "1":
                power = Operation("*", [power, self])
        return 1 / power if exponent < 0 else power

    def __le__(self, other: "Operand") -> "Formula":
        return Formula("<=", [self, term_of(other)])

    def __lt__(self, other: "Operand") -> "Formula":
        return Formula("<", [self, term_of(other)])

    def __ge__(self, other: "Operand") -> "Formula":
        return Formula(">=", [self, term_of(other)])

    def __gt__(self, other: "Operand") -> "Formula":
        return Formula(">", [self, term_of(other)])

    def __eq__(self, other: "Operand") -> "Formula":  # type: ignore[override]
        return Formula("=", [self, term_of(other)])

    def __ne__(self, other: "Operand") -> "Formula":  # type: ignore[override]
        return Formula("distinct", [self, term_of(other)])

    __hash__ = object.__hash__


Operand = Union[Term, Number]


class Operation(Term):
    """A sum, product, opposite or choice of terms."""

    __slots__ = ()


class Constant(Term):
    """A number."""

    __slots__ = ("value",)
    value: Fraction

    def __init__(self, value: Number) -> None:
        value = fraction_of(value)
        size = str(abs(value.numerator)) if value.denominator == 1 else f"(/ {abs(value.numerator)} {value.denominator})"
        super().__init__(size if value >= 0 else f"(- {size})")
        object.__setattr__(self, "value", value)


class Real(Term):
    """The Real constant of that name, with its lower and upper bound. Every Real that is solved for needs both, from here,
    from the formulas (as `x <= 1`), or from `solve(.., bound=N)`. Two `Real`s of one name are one constant."""

    __slots__ = ("name", "low", "high")
    name: str
    low: Optional[Fraction]
    high: Optional[Fraction]

    def __init__(self, name: str, low: Optional[Number] = None, high: Optional[Number] = None) -> None:
        super().__init__(symbol_of(name))
        object.__setattr__(self, "name", name)
        object.__setattr__(self, "low", None if low is None else fraction_of(low))
        object.__setattr__(self, "high", None if high is None else fraction_of(high))


class Formula(Expression):
    """A comparison of terms, or a Boolean combination of formulas. `&`, `|`, `^` and `~` stand for `And`, `Or`, `Xor` and
    `Not`; `==` and `!=` of two formulas are formulas too."""

    __slots__ = ()

    def __and__(self, other: "Proposition") -> "Formula":
        return And(self, other)

    def __rand__(self, other: "Proposition") -> "Formula":
        return And(other, self)

    def __or__(self, other: "Proposition") -> "Formula":
        return Or(self, other)

    def __ror__(self, other: "Proposition") -> "Formula":
        return Or(other, self)

    def __xor__(self, other: "Proposition") -> "Formula":
        return Xor(self, other)

    def __rxor__(self, other: "Proposition") -> "Formula":
        return Xor(other, self)

    def __invert__(self) -> "Formula":
        return Not(self)

    def __eq__(self, other: "Proposition") -> "Formula":  # type: ignore[override]
        return Formula("=", [self, formula_of(other)])

    def __ne__(self, other: "Proposition") -> "Formula":  # type: ignore[override]
        return Xor(self, other)

    __hash__ = object.__hash__


Proposition = Union[Formula, bool]


class Bool(Formula):
    """The Bool constant of that name. Two `Bool`s of one name are one constant."""

    __slots__ = ("name",)
    name: str

    def __init__(self, name: str) -> None:
        super().__init__(symbol_of(name))
        object.__setattr__(self, "name", name)


def term_of(value: Operand) -> Term:
    """The term, or the number as a term. Raises `TypeError` for anything else."""
    return value if isinstance(value, Term) else Constant(value)


def formula_of(value: Proposition) -> Formula:
    """The formula, or Python's True or False as one. Raises `TypeError` for anything else."""
    if isinstance(value, bool):
        return Formula("true" if value else "false")
    if not isinstance(value, Formula):
        raise TypeError(f"{value!r} is no formula")
    return value


def joined(symbol: str, left: Term, right: Term) -> Term:
    """`left` and `right` under `symbol`, which groups from the left: a longer sum or product is one operation."""
    first = left.arguments if isinstance(left, Operation) and left.symbol == symbol else (left,)
    return Operation(symbol, [*first, right])


def formulas_of(values: Tuple[object, ...]) -> Tuple[Formula, ...]:
    """The formulas given as arguments, or as one list, tuple or other iterable of them."""
    if len(values) == 1 and not isinstance(values[0], (Formula, bool)):
        try:
            values = tuple(values[0])  # type: ignore[arg-type]
        except TypeError:
            pass
    return tuple(formula_of(it) for it in values)  # type: ignore[arg-type]


def And(*formulas: object) -> Formula:
    """All of the formulas hold; of none, true. They come as arguments or as one iterable."""
    found = formulas_of(formulas)
    return Formula("and", found) if found else formula_of(True)


def Or(*formulas: object) -> Formula:
    """One of the formulas or more hold; of none, false. They come as arguments or as one iterable."""
    found = formulas_of(formulas)
    return Formula("or", found) if found else formula_of(False)


def Not(formula: Proposition) -> Formula:
    """The formula does not hold."""
    return Formula("not", [formula_of(formula)])


def Implies(premise: Proposition, conclusion: Proposition) -> Formula:
    """Where the premise holds, the conclusion does."""
    return Formula("=>", [formula_of(premise), formula_of(conclusion)])


def Xor(left: Proposition, right: Proposition) -> Formula:
    """Just one of the two holds."""
    return Formula("xor", [formula_of(left), formula_of(right)])


def Distinct(*values: object) -> Formula:
    """No two of the terms are equal, or no two of the formulas; they come as arguments or as one iterable."""
    found = tuple(values[0]) if len(values) == 1 and not isinstance(values[0], Expression) else values  # type: ignore[arg-type]
    if len(found) < 2:
        return formula_of(True)
    are_formulas = any(isinstance(it, (Formula, bool)) for it in found)
    return Formula("distinct", [formula_of(it) if are_formulas else term_of(it) for it in found])  # type: ignore[arg-type]


def choice_of(condition: Proposition, then: Operand, otherwise: Operand) -> Term:
    return Operation("ite", [formula_of(condition), term_of(then), term_of(otherwise)])


def Min(*terms: Operand) -> Term:
    """The least of the terms, as choices."""
    return nearest("<=", terms)


def Max(*terms: Operand) -> Term:
    """The greatest of the terms, as choices."""
    return nearest(">=", terms)


def nearest(symbol: str, terms: Tuple[Operand, ...]) -> Term:
    if not terms:
        raise TypeError("the least or greatest of no terms is asked for")
    found = term_of(terms[0])
    for it in map(term_of, terms[1:]):
        found = choice_of(Formula(symbol, [found, it]), found, it)
    return found


def Sqrt(term: Operand) -> Term:
    """The square root that is not negative. Of a negative number there is none: no point has it, unless it stands under a condition
    (in an `If`, an `Or`): there it counts as 0."""
    return Operation("sqrt", [term_of(term)])


def If(condition: Proposition, then: object, otherwise: object) -> Expression:
    """`then` where the condition holds, else `otherwise`: two terms or numbers, or two formulas."""
    if isinstance(then, (Formula, bool)) or isinstance(otherwise, (Formula, bool)):
        return Formula("ite", [formula_of(condition), formula_of(then), formula_of(otherwise)])  # type: ignore[arg-type]
    return choice_of(condition, then, otherwise)  # type: ignore[arg-type]


def replaced(root: Expression, values: Mapping[str, Expression]) -> Expression:
    """The expression with others in the place of constants, by their names."""
    made: Dict[int, Expression] = {}
    for node in upward(root):
        if isinstance(node, (Real, Bool)):
            made[id(node)] = values.get(node.name, node)
            continue
        arguments = [made[id(it)] for it in node.arguments]
        is_same = all(a is b for a, b in zip(arguments, node.arguments))
        made[id(node)] = node if is_same else (Formula if isinstance(node, Formula) else Operation)(node.symbol, arguments)
    return made[id(root)]


def nodes_below(roots: Sequence[Expression]) -> Iterator[Expression]:
    """Each different node once, in the order of their first occurrence from the left."""
    seen, left = set(), list(reversed(roots))
    while left:
        node = left.pop()
        if id(node) not in seen:
            seen.add(id(node))
            yield node
            left += reversed(node.arguments)


def upward(root: Expression) -> Iterator[Expression]:
    """Each different node at or below the root once, after its arguments."""
    done, left = set(), [(root, False)]
    while left:
        node, is_open = left.pop()
        if id(node) in done:
            continue
        if is_open or not node.arguments:
            done.add(id(node))
            yield node
        else:
            left.append((node, True))
            left += [(it, False) for it in reversed(node.arguments)]
