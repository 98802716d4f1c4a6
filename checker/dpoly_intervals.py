"""Intervals with ends of the grid, for the checker in plain Python (`dpoly_checker.py`).

An end is a whole number of units of 2^-120, as every number of the grid is. An infinite end is a
number so great that every operation below answers what docs/FORMATS.md asks of an infinity: it
times 0 is 0, it times any other end and any sum with it is beyond the grid, and what is beyond the
grid is rounded to an infinity. An interval is a pair of a lower and an upper end; None is the
empty one. Most of the time of a check goes by in `plus` and `times`, so rounding, which is that of
`down` and `up`, is written out in them.
"""
from __future__ import annotations

from fractions import Fraction
from math import isqrt
from typing import Optional, Tuple

End = int
Interval = Tuple[End, End]

UNIT = 1 << 120  # so many units are 1
GREATEST = UNIT << 122  # the greatest number of the grid
INFINITE = 1 << 400  # beyond what a product of two numbers of the grid can be
MANTISSA = 62  # bits of a number of the grid
# An end of more bits may be beyond the grid. A product has 120 bits below the units besides.
WIDEST = GREATEST.bit_length() - MANTISSA - 1
PRODUCT = MANTISSA + 120

NOUGHT: Interval = (0, 0)
LINE: Interval = (-INFINITE, INFINITE)


# ---------------------------------------------------------------- Rounding
def low_end(end: End) -> End:
    """A lower end of at most 62 bits, brought back to the grid where it is beyond."""
    return GREATEST if end > GREATEST else -INFINITE if end < -GREATEST else end


def high_end(end: End) -> End:
    return -low_end(-end)


def down(numerator: int, denominator: int = 1) -> End:
    """The greatest end that is not above numerator/denominator units."""
    whole = numerator // denominator
    shift = whole.bit_length() - MANTISSA
    return low_end(whole >> shift << shift) if shift > 0 else whole


def up(numerator: int, denominator: int = 1) -> End:
    """The least end that is not below numerator/denominator units."""
    return -down(-numerator, denominator)


def rounded(fraction: Fraction) -> Interval:
    """The least interval that holds a fraction."""
    numerator, denominator = fraction.numerator * UNIT, fraction.denominator
    return down(numerator, denominator), up(numerator, denominator)


# ---------------------------------------------------------------- Sets
def meet(a: Optional[Interval], b: Optional[Interval]) -> Optional[Interval]:
    """What two intervals have in common."""
    if a is None or b is None:
        return None
    low, high = a
    other_low, other_high = b
    if low < other_low:
        low = other_low
    if high > other_high:
        high = other_high
    return (low, high) if low <= high else None


def within(a: Interval, b: Interval) -> bool:
    return b[0] <= a[0] and a[1] <= b[1]


# ---------------------------------------------------------------- Operations
def minus(a: Interval) -> Interval:
    return -a[1], -a[0]


def plus(a: Interval, b: Interval) -> Interval:
    low, high = a[0] + b[0], a[1] + b[1]
    shift = low.bit_length() - MANTISSA
    if shift > 0:
        low = low >> shift << shift
        if shift > WIDEST:
            low = low_end(low)
    shift = high.bit_length() - MANTISSA
    if shift > 0:
        high = -(-high >> shift << shift)
        if shift > WIDEST:
            high = high_end(high)
    return low, high


def less(a: Interval, b: Interval) -> Interval:
    return plus(a, (-b[1], -b[0]))


def times(a: Interval, b: Interval) -> Interval:
    """The product, by the signs of the ends (Moore 1966); a product of two ends is a whole number
    of 2^-120 units."""
    a_low, a_high = a
    b_low, b_high = b
    if a_low >= 0:
        if b_low >= 0:
            low, high = a_low * b_low, a_high * b_high
        elif b_high <= 0:
            low, high = a_high * b_low, a_low * b_high
        else:
            low, high = a_high * b_low, a_high * b_high
    elif a_high <= 0:
        if b_low >= 0:
            low, high = a_low * b_high, a_high * b_low
        elif b_high <= 0:
            low, high = a_high * b_high, a_low * b_low
        else:
            low, high = a_low * b_high, a_low * b_low
    elif b_low >= 0:
        low, high = a_low * b_high, a_high * b_high
    elif b_high <= 0:
        low, high = a_high * b_low, a_low * b_low
    else:
        low = min(a_low * b_high, a_high * b_low)
        high = max(a_low * b_low, a_high * b_high)
    shift = low.bit_length() - PRODUCT
    if shift > 0:
        low = low >> shift + 120 << shift
        if shift > WIDEST:
            low = low_end(low)
    else:
        low >>= 120
    shift = high.bit_length() - PRODUCT
    if shift > 0:
        high = -(-high >> shift + 120 << shift)
        if shift > WIDEST:
            high = high_end(high)
    else:
        high = -(-high >> 120)
    return low, high


def square(a: Interval) -> Interval:
    low, high = a
    if low < 0:
        low, high = (0, max(-low, high)) if high >= 0 else (-high, -low)
    return times((low, high), (low, high))


# ---------------------------------------------------------------- Inverse operations
def quotient_down(x: End, y: End) -> End:
    """The quotient of two ends, the second not 0, rounded down; by an infinity it is 0."""
    return down(x * UNIT, y) if -INFINITE < y < INFINITE else 0


def quotient_up(x: End, y: End) -> End:
    return -quotient_down(-x, y)


def quotient(n: Interval, o: Interval) -> Interval:
    """From the least to the greatest of the quotients of the ends, where 0 is not in `o`."""
    (n_low, n_high), (o_low, o_high) = n, o
    if o_high < 0:
        n_low, n_high, o_low, o_high = -n_high, -n_low, -o_high, -o_low
    return (quotient_down(n_low, o_low if n_low < 0 else o_high),
            quotient_up(n_high, o_high if n_high < 0 else o_low))


def factor(n: Interval, o: Interval) -> Optional[Interval]:
    """What a product leaves to the factor beside `o`, where `n` is its narrowed interval."""
    (n_low, n_high), (o_low, o_high) = n, o
    if o_low > 0 or o_high < 0:
        return quotient(n, o)
    if n_low <= 0 <= n_high:
        return LINE
    if o_low < 0 < o_high:
        return LINE
    if o_low == o_high:
        return None
    near = n_low if n_low > 0 else n_high  # the end of n that is nearer to 0
    end = o_low or o_high  # that of o that is not 0
    if (near > 0) == (end > 0):
        return quotient_down(near, end), INFINITE
    return -INFINITE, quotient_up(near, end)


def root(n: Interval, enclosure: Interval) -> Optional[Interval]:
    """What a square leaves to its operand, where `n` is its narrowed interval, in which no number
    is below 0."""
    low = down(isqrt(n[0] * UNIT))
    high = up(isqrt(n[1] * UNIT - 1) + 1) if n[1] else 0
    negative, positive = meet(enclosure, (-high, -low)), meet(enclosure, (low, high))
    if negative is None or positive is None:
        return negative or positive
    return min(negative[0], positive[0]), max(negative[1], positive[1])


def root_within(v: Interval, d: Interval) -> Optional[Interval]:
    """The root of `v` within `d`."""
    part = meet(v, square(d))
    return root(part, d) if part else None
