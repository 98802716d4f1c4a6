"""`sin`, `cos`, `exp`, `log`, `atan`, `tanh` and `sigmoid` of bounded terms, as polynomials with a proved remainder.

`sin(t)` is a term p(t) + e: p has exact coefficients, and e is a constant with bounds -E and E, where |sin(s) - p(s)| <= E for each s
in the range of t. That range is computed from the bounds of the constants in t; where it is wide, p is one of several
polynomials, by choice. So each point of a question about the function is one of the question with p and e, and `Unsat` holds of
the function itself. A `DeltaSat` is of the enclosure: its e may be any number within its bounds.

The polynomial is the Taylor polynomial at the middle of the range with its remainder, made shorter by Chebyshev polynomials (economization:
Lanczos, 1938). All of it is computed with fractions; what is rounded is added to E."""
from __future__ import annotations

from dataclasses import dataclass
from fractions import Fraction
from math import factorial
from typing import Callable, Dict, List, Optional, Sequence, Tuple

from .guards import numbers_and_ranges
from .ranges import RANGES, WHOLE, Interval, meet, minus, over, plus, root_below, shortened, times
from .script import bounds_of, constants_of, text_of
from .terms import Operand, Real, Term, choice_of, term_of

ERROR = Fraction(1, 2**12)
DEGREE = 9
MOST_PIECES = 64
TERMS = 48
"""Of a Taylor polynomial."""
FINE = 2**70
"""Taylor coefficients are rounded to multiples of 1/FINE, and the rounding is added to the remainder."""
COEFFICIENT, FINEST = 2**50, Fraction(1, 2**40)
ONE: Interval = (Fraction(1), Fraction(1))


def exactly(value: Fraction) -> Interval:
    return value, value


# ---------------------------------------------------------------- Values at a fraction
def exp_at(c: Fraction) -> Interval:
    """exp(c) = exp(c / 2^k)^(2^k), the inner one by its series with |c / 2^k| <= 1/2, whose tail is below twice its first term."""
    halvings = max(0, c.numerator.bit_length() - c.denominator.bit_length() + 2)
    small = c / 2**halvings
    total = sum((small**k / factorial(k) for k in range(25)), Fraction(0))
    tail = 2 * abs(small) ** 25 / factorial(25)
    value: Interval = (total - tail, total + tail)
    for _ in range(halvings):
        value = shortened(times(value, value))
    return value


def sine_at(c: Fraction, is_cosine: bool) -> Interval:
    """The series; its terms fall from a number of terms of twice |c| on, and its tail is below the first that is left out."""
    first, total, k = int(is_cosine is False), Fraction(0), 0
    power = c**first / 1
    while 2 * k < 2 * abs(c) or abs(power) > Fraction(1, 2**100):
        total += power if k % 2 == 0 else -power
        k += 1
        at = 2 * k + first
        power = power * c * c / (at * (at - 1))
    return shortened((total - abs(power), total + abs(power)))


def odd_series(x: Fraction, is_alternating: bool) -> Interval:
    """x - x^3/3 + .. or x + x^3/3 + .., for |x| <= 1/2: the tail is below twice its first term."""
    total = sum(((-1 if is_alternating and k % 2 else 1) * x ** (2 * k + 1) / (2 * k + 1) for k in range(50)), Fraction(0))
    tail = 2 * abs(x) ** 101 / 101
    return shortened((total - tail, total + tail))


def log_at(c: Fraction) -> Interval:
    """log(m 2^k) = 2 artanh((m - 1)/(m + 1)) + 2 k artanh(1/3), with m from 1/2 to 2."""
    k = c.numerator.bit_length() - c.denominator.bit_length()
    m = c / Fraction(2) ** k
    two = exactly(Fraction(2))
    return plus(times(two, odd_series((m - 1) / (m + 1), False)), times(exactly(Fraction(2 * k)), odd_series(Fraction(1, 3), False)))


def atan_at(c: Fraction) -> Interval:
    """atan(c) = atan(1/2) + atan((c - 1/2)/(1 + c/2)) where 1/2 < c <= 1, pi/2 - atan(1/c) above, with pi/2 = 2 atan(1/2) + 2 atan(1/3)."""
    if c < 0:
        return minus(atan_at(-c))
    half = odd_series(Fraction(1, 2), True)
    if c > 1:
        quarter = plus(half, odd_series(Fraction(1, 3), True))
        return plus(quarter, quarter, minus(atan_at(1 / c)))
    return odd_series(c, True) if c <= Fraction(1, 2) else plus(half, odd_series((c - Fraction(1, 2)) / (1 + c / 2), True))


def tanh_at(c: Fraction) -> Interval:
    """1 - 2 / (exp(2c) + 1)."""
    return plus(ONE, minus(over(exactly(Fraction(2)), plus(exp_at(2 * c), ONE))))


def sigmoid_at(c: Fraction) -> Interval:
    return over(ONE, plus(ONE, exp_at(-c)))


# ---------------------------------------------------------------- Taylor's coefficients, and what is behind them
Series = Tuple[List[Interval], Optional[Fraction]]
"""The coefficients of degree 0 to TERMS - 1 at the middle c, and what bounds the rest where |u| <= r; None where nothing does."""


def exp_series(c: Fraction, r: Fraction) -> Series:
    """The derivative of each order is exp, at most exp(c + r)."""
    value = exp_at(c)
    most = exp_at(c + r)[1]
    return [shortened(times(value, exactly(Fraction(1, factorial(k))))) for k in range(TERMS)], most * r**TERMS / factorial(TERMS)  # type: ignore[operator]


def turned(c: Fraction, r: Fraction, first: int) -> Series:
    """Of sine (0) and cosine (1): the derivatives go round, and none is above 1."""
    values = [sine_at(c, False), sine_at(c, True)]
    values += [minus(values[0]), minus(values[1])]
    return [shortened(times(values[(k + first) % 4], exactly(Fraction(1, factorial(k))))) for k in range(TERMS)], r**TERMS / factorial(TERMS)


def geometric(q: Fraction, factor: Fraction) -> Optional[Fraction]:
    """factor * (q^TERMS + q^(TERMS + 1) + ..)"""
    return factor * q**TERMS / (1 - q) if q < 1 else None


def log_series(c: Fraction, r: Fraction) -> Series:
    """log(c + u) = log(c) - sum of (-u/c)^k / k, for |u| < c."""
    found = [log_at(c), *(exactly(-((-1 / c) ** k) / k) for k in range(1, TERMS))]
    return found, geometric(r / c, Fraction(1, TERMS))


def atan_series(c: Fraction, r: Fraction) -> Series:
    """The derivative 1/(1 + x^2) is the imaginary part of 1/(x - i), so its coefficient of degree k is at most |c - i|^-(k + 1)."""
    derivative = [1 / (1 + c * c)]
    derivative.append(-2 * c * derivative[0] / (1 + c * c))
    while len(derivative) < TERMS:
        derivative.append(-(2 * c * derivative[-1] + derivative[-2]) / (1 + c * c))
    found = [atan_at(c), *(exactly(derivative[k - 1] / k) for k in range(1, TERMS))]
    return found, geometric(r / root_below(1 + c * c, 2), Fraction(1, TERMS))


RADIUS, LARGEST = Fraction(5, 4), Fraction(302, 100)
"""In the disc of this radius about a real number tanh is at most tan(5/4) < 3.02: |tanh(x + iy)|^2 is
(sinh(x)^2 + sin(y)^2) / (sinh(x)^2 + cos(y)^2), at most the greater of 1 and tan(y)^2."""


def recurrent(first: Interval, next_of: Callable[[List[Interval], int], Interval]) -> List[Interval]:
    found = [first]
    for k in range(TERMS - 1):
        found.append(shortened(times(next_of(found, k), exactly(Fraction(1, k + 1)))))
    return found


def square_coefficient(known: List[Interval], k: int) -> Interval:
    return plus(*(times(known[i], known[k - i]) for i in range(k + 1)))


def tanh_series(c: Fraction, r: Fraction) -> Series:
    """y' = 1 - y^2; the coefficients are at most LARGEST / RADIUS^k by Cauchy."""
    def next_of(known: List[Interval], k: int) -> Interval:
        return plus(ONE if k == 0 else exactly(Fraction(0)), minus(square_coefficient(known, k)))

    return recurrent(tanh_at(c), next_of), geometric(r / RADIUS, LARGEST)


def sigmoid_series(c: Fraction, r: Fraction) -> Series:
    """y' = y - y^2; sigmoid(x) = (1 + tanh(x/2)) / 2."""
    def next_of(known: List[Interval], k: int) -> Interval:
        return plus(known[k], minus(square_coefficient(known, k)))

    return recurrent(sigmoid_at(c), next_of), geometric(r / (2 * RADIUS), LARGEST / 2)


FUNCTIONS: Dict[str, Callable[[Fraction, Fraction], Series]] = {
    "sin": lambda c, r: turned(c, r, 0),
    "cos": lambda c, r: turned(c, r, 1),
    "exp": exp_series,
    "log": log_series,
    "atan": atan_series,
    "tanh": tanh_series,
    "sigmoid": sigmoid_series,
}


def rising(value_at: Callable[[Fraction], Interval], least: Optional[int], most: Optional[int], limit: int) -> Callable[[Interval], Interval]:
    """The range of a function that rises, and that lies between `least` and `most`; ends beyond `limit` are taken for infinite."""
    def range_of(a: Interval) -> Interval:
        low = None if a[0] is None or abs(a[0]) > limit else value_at(a[0])[0]
        high = None if a[1] is None or abs(a[1]) > limit else value_at(a[1])[1]
        return meet((low, high), (None if least is None else Fraction(least), None if most is None else Fraction(most)))

    return range_of


def log_range(a: Interval) -> Interval:
    return rising(log_at, None, None, 10**6)(a) if a[0] is not None and a[0] > 0 else WHOLE


RANGES.update(
    {
        "sin": lambda a: (Fraction(-1), Fraction(1)),
        "cos": lambda a: (Fraction(-1), Fraction(1)),
        "exp": rising(exp_at, 0, None, 40),
        "log": log_range,
        "atan": rising(atan_at, -2, 2, 10**6),
        "tanh": rising(tanh_at, -1, 1, 20),
        "sigmoid": rising(sigmoid_at, 0, 1, 20),
    }
)

# ---------------------------------------------------------------- Polynomials
@dataclass(frozen=True)
class Piece:
    """On `low` to `high` the function is within `error` of the polynomial with these coefficients in (t - center) / scale."""

    low: Fraction
    high: Fraction
    center: Fraction
    scale: int
    coefficients: Tuple[Fraction, ...]
    error: Fraction


def enclosed(name: str, low: Fraction, high: Fraction, error: Fraction = ERROR, degree: int = DEGREE) -> List[Piece]:
    """Polynomials of at most this degree, each on a piece of the range, that are within `error` of the function. Raises
    `ValueError` where the function is not defined on the range, or no 64 pieces are enough."""
    if name == "log" and low <= 0:
        raise ValueError("log is asked of a range that reaches 0 or below")
    if error < FINEST:
        raise ValueError("a remainder below 2^-40 is finer than the coefficients")
    if max(abs(low), abs(high)) > (40 if name in ("exp", "sigmoid", "tanh") else 10**6 if name in ("log", "atan") else 1000):
        raise ValueError(f"{name} is asked of a range that is too far from 0: {low} to {high}")
    pieces: List[Tuple[Fraction, Fraction]] = [(low, high)]
    done: List[Piece] = []
    while pieces:
        a, b = pieces.pop()
        piece = shortest(name, a, b, error, degree)
        if piece is not None:
            done.append(piece)
            continue
        if len(done) + len(pieces) + 2 > MOST_PIECES:
            raise ValueError(f"{name} from {low} to {high} takes more than {MOST_PIECES} pieces of degree {degree}: ask for less")
        middle = simple_between(a, b)
        pieces += [(middle, b), (a, middle)]
    return done


def simple_between(a: Fraction, b: Fraction) -> Fraction:
    """A fraction of few digits near the middle."""
    width, scale = b - a, Fraction(1)
    while scale * 8 > width:
        scale /= 2
    return round((a + b) / 2 / scale) * scale


def shortest(name: str, a: Fraction, b: Fraction, error: Fraction, degree: int) -> Optional[Piece]:
    """The polynomial of the least degree that is near enough; None where there is none."""
    c = simple_between(a, b) if a < b else a
    r = max(b - c, c - a)
    if name == "log" and r >= c:
        return None
    taylor, rest = FUNCTIONS[name](c, r)
    if rest is None or rest > error / 4:
        return None
    scaled, off = [], rest
    for k, interval in enumerate(taylor):
        low, high = (it * r**k for it in interval)  # type: ignore[operator]
        middle = Fraction(round((low + high) / 2 * FINE), FINE)
        off += max(abs(low - middle), abs(high - middle))
        scaled.append(middle)
    chebyshev = to_chebyshev(scaled)
    left_out = Fraction(0)
    sums = [left_out := left_out + abs(it) for it in reversed(chebyshev)][::-1]  # of the coefficients from this degree on
    for n in range(degree + 1):
        bound = off + (sums[n + 1] if n + 1 < len(sums) else 0)
        if bound <= error / 2:
            return rounded(a, b, c, r, from_chebyshev(chebyshev[: n + 1]), bound)
    return None


def to_chebyshev(coefficients: Sequence[Fraction]) -> List[Fraction]:
    """The same polynomial on [-1, 1] as a sum of Chebyshev polynomials, by Horner's rule: t T0 = T1, t Tj = (T(j-1) + T(j+1)) / 2."""
    found = [Fraction(0)]
    for it in reversed(coefficients):
        shifted = [Fraction(0)] * (len(found) + 1)
        for j, value in enumerate(found):
            if j == 0:
                shifted[1] += value
            else:
                shifted[j - 1] += value / 2
                shifted[j + 1] += value / 2
        shifted[0] += it
        found = shifted
    return found[: len(coefficients)]


def from_chebyshev(coefficients: Sequence[Fraction]) -> List[Fraction]:
    before, now = [Fraction(1)], [Fraction(0), Fraction(1)]
    found = [Fraction(0)] * max(2, len(coefficients))
    for value in coefficients:
        for k, it in enumerate(before):
            found[k] += value * it
        before, now = now, [2 * a - b for a, b in zip([Fraction(0), *now], [*before, *[Fraction(0)] * (len(now) + 1 - len(before))])]
    return found


def rounded(a: Fraction, b: Fraction, c: Fraction, r: Fraction, scaled: Sequence[Fraction], bound: Fraction) -> Piece:
    """The polynomial in (t - c) / scale, with coefficients that the program reads; what they are off is added to the bound."""
    coefficients, scale = [], 1
    while scale < r:
        scale *= 2
    for k, it in enumerate(scaled):
        exact = it * (scale / r) ** k if r else (it if k == 0 else Fraction(0))
        near = Fraction(round(exact * COEFFICIENT), COEFFICIENT)
        bound += abs(near - exact) * (r / scale) ** k
        coefficients.append(near)
    while len(coefficients) > 1 and coefficients[-1] == 0:
        coefficients.pop()
    return Piece(a, b, c, scale, tuple(coefficients), Fraction(-(-bound.numerator * 2**60 // bound.denominator), 2**60))


# ---------------------------------------------------------------- Terms
remainders: Dict[Tuple, Real] = {}


def function_of(name: str, term: Operand, error: Optional[Fraction] = None, degree: int = DEGREE) -> Term:
    """The function of a term, as the head of this module says. The same function of the same term has the same remainder."""
    argument, wanted = term_of(term), ERROR if error is None else Fraction(error)
    low, high = range_of_term(argument)
    pieces = enclosed(name, low, high, wanted, degree)
    most = max(it.error for it in pieces)
    key = (name, text_of(argument, set()), tuple(bounds_in(argument)), wanted, degree)
    if key not in remainders:
        remainders[key] = Real(f"{name}({sum(it[0] == name for it in remainders)})", -most, most)
    return choice_of_pieces(argument, pieces) + remainders[key]


def choice_of_pieces(argument: Term, pieces: Sequence[Piece]) -> Term:
    """The polynomial of the piece in which the argument lies."""
    found = polynomial(argument, pieces[-1])
    for it in reversed(pieces[:-1]):
        found = choice_of(argument <= it.high, polynomial(argument, it), found)
    return found


def bounds_in(term: Term) -> List[str]:
    return [line for it in constants_of([term]) if isinstance(it, Real) for line in bounds_of(it)]


def range_of_term(term: Term) -> Tuple[Fraction, Fraction]:
    """The range of a term by the bounds of its constants. Raises `ValueError` where it has none."""
    numbers, known = numbers_and_ranges([], [term])
    interval = known[numbers[id(term)]]
    if interval is None or None in interval:
        raise ValueError("a function is asked of a term without bounds: give each Real in it its bounds, as Real('x', 0, 1)")
    return interval  # type: ignore[return-value]


def polynomial(term: Term, piece: Piece) -> Term:
    """By Horner's rule, in the square of the term where all degrees are even or all odd."""
    u = term - piece.center if piece.center else term
    u = u / piece.scale if piece.scale != 1 else u
    coefficients = piece.coefficients
    if len(coefficients) > 2 and not any(coefficients[1::2]):
        return horner(u * u, coefficients[::2])
    if len(coefficients) > 3 and not any(coefficients[::2]):
        return horner(u * u, coefficients[1::2]) * u
    return horner(u, coefficients)


def horner(u: Term, coefficients: Sequence[Fraction]) -> Term:
    found: Operand = coefficients[-1]
    for it in reversed(coefficients[:-1]):
        found = u * found if it == 0 else u * found + it
    return term_of(found)


def sin(term: Operand, error: Optional[Fraction] = None, degree: int = DEGREE) -> Term:
    return function_of("sin", term, error, degree)


def cos(term: Operand, error: Optional[Fraction] = None, degree: int = DEGREE) -> Term:
    return function_of("cos", term, error, degree)


def exp(term: Operand, error: Optional[Fraction] = None, degree: int = DEGREE) -> Term:
    return function_of("exp", term, error, degree)


def log(term: Operand, error: Optional[Fraction] = None, degree: int = DEGREE) -> Term:
    return function_of("log", term, error, degree)


def atan(term: Operand, error: Optional[Fraction] = None, degree: int = DEGREE) -> Term:
    return function_of("atan", term, error, degree)


def tanh(term: Operand, error: Optional[Fraction] = None, degree: int = DEGREE) -> Term:
    return function_of("tanh", term, error, degree)


def sigmoid(term: Operand, error: Optional[Fraction] = None, degree: int = DEGREE) -> Term:
    return function_of("sigmoid", term, error, degree)
