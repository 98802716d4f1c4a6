"""Polynomials with exact coefficients: sums, products, derivatives, and the terms that they are written as."""
from __future__ import annotations

from fractions import Fraction
from typing import Dict, List, Mapping, Tuple

from .terms import Constant, Expression, Real, Term, term_of, upward

Monomial = Tuple[Tuple[str, int], ...]
"""Names with their exponents, which are not 0, by name."""
Coefficients = Dict[Monomial, Fraction]
MOST_MONOMIALS = 20_000


class Polynomial:
    """A polynomial over Reals, as a sum of different monomials with coefficients that are not 0."""

    def __init__(self, coefficients: Mapping[Monomial, Fraction], reals: Mapping[str, Real]) -> None:
        self.coefficients = {it: value for it, value in coefficients.items() if value}
        self.reals = dict(reals)
        if len(self.coefficients) > MOST_MONOMIALS:
            raise ValueError(f"a polynomial of more than {MOST_MONOMIALS} monomials")

    @staticmethod
    def of(term: Term) -> "Polynomial":
        """The polynomial that a term of sums, products and numbers is. Raises `ValueError` for a choice, a root or a quotient by a
        term."""
        known: Dict[int, Polynomial] = {}
        for node in upward(term_of(term)):
            known[id(node)] = Polynomial.made(node, [known[id(it)] for it in node.arguments])
        return known[id(term_of(term))] if isinstance(term, Term) else Polynomial.constant(term_of(term).value)  # type: ignore[attr-defined]

    @staticmethod
    def made(node: Expression, parts: List["Polynomial"]) -> "Polynomial":
        if isinstance(node, Constant):
            return Polynomial.constant(node.value)
        if isinstance(node, Real):
            return Polynomial({((node.name, 1),): Fraction(1)}, {node.name: node})
        if node.symbol == "-":
            return parts[0] * Polynomial.constant(Fraction(-1))
        if node.symbol not in ("+", "*"):
            raise ValueError(f"{node.symbol} stands in a term that has to be a polynomial")
        found = parts[0]
        for it in parts[1:]:
            found = found + it if node.symbol == "+" else found * it
        return found

    @staticmethod
    def constant(value: Fraction) -> "Polynomial":
        return Polynomial({(): value}, {})

    def __add__(self, other: "Polynomial") -> "Polynomial":
        found = dict(self.coefficients)
        for it, value in other.coefficients.items():
            found[it] = found.get(it, Fraction(0)) + value
        return Polynomial(found, {**self.reals, **other.reals})

    def __sub__(self, other: "Polynomial") -> "Polynomial":
        return self + other * Polynomial.constant(Fraction(-1))

    def __mul__(self, other: "Polynomial") -> "Polynomial":
        found: Coefficients = {}
        for a, x in self.coefficients.items():
            for b, y in other.coefficients.items():
                both = joined(a, b)
                found[both] = found.get(both, Fraction(0)) + x * y
        return Polynomial(found, {**self.reals, **other.reals})

    def derivative(self, name: str) -> "Polynomial":
        """By the Real of that name."""
        found: Coefficients = {}
        for monomial, value in self.coefficients.items():
            powers = dict(monomial)
            exponent = powers.pop(name, 0)
            if exponent:
                if exponent > 1:
                    powers[name] = exponent - 1
                found[tuple(sorted(powers.items()))] = value * exponent
        return Polynomial(found, self.reals)

    def along(self, flow: Mapping[str, "Polynomial"]) -> "Polynomial":
        """The Lie derivative along a flow: the sum of the derivatives by each Real, each times its rate."""
        found = Polynomial.constant(Fraction(0))
        for name, rate in flow.items():
            found = found + self.derivative(name) * rate
        return found

    def with_values(self, values: Mapping[str, "Polynomial"]) -> "Polynomial":
        """The polynomial with polynomials in the place of Reals."""
        found = Polynomial.constant(Fraction(0))
        for monomial, value in self.coefficients.items():
            product = Polynomial.constant(value)
            for name, exponent in monomial:
                factor = values.get(name) or Polynomial({((name, 1),): Fraction(1)}, {name: self.reals[name]})
                for _ in range(exponent):
                    product = product * factor
            found = found + product
        return found

    def number(self) -> "Fraction | None":
        """The value of a polynomial that is constant; None of another one."""
        if any(it for it in self.coefficients):
            return None
        return self.coefficients.get((), Fraction(0))

    def term(self) -> Term:
        """The sum of the monomials, those of high degree first."""
        parts: List[Term] = []
        for monomial, value in sorted(self.coefficients.items(), key=lambda it: (-sum(e for _, e in it[0]), it[0])):
            product: Term = Constant(value)
            for number, (name, exponent) in enumerate(monomial):
                power = self.reals[name] ** exponent
                product = power if number == 0 and value == 1 else product * power
            parts.append(product)
        found = parts[0] if parts else Constant(0)
        for it in parts[1:]:
            found = found + it
        return found

    def __str__(self) -> str:
        texts = []
        for monomial, value in sorted(self.coefficients.items(), key=lambda it: (-sum(e for _, e in it[0]), it[0])):
            names = "*".join(name if exponent == 1 else f"{name}^{exponent}" for name, exponent in monomial)
            size = "" if abs(value) == 1 and names else str(abs(value))
            texts.append(("- " if value < 0 else "+ ") + "*".join(it for it in (size, names) if it))
        whole = " ".join(texts)
        return "0" if not whole else whole[2:] if whole.startswith("+ ") else "-" + whole[2:]


def joined(a: Monomial, b: Monomial) -> Monomial:
    powers = dict(a)
    for name, exponent in b:
        powers[name] = powers.get(name, 0) + exponent
    return tuple(sorted(powers.items()))
