"""Exact comparisons with square roots, and the least whole number that holds."""

from __future__ import annotations

from collections.abc import Callable
from dataclasses import dataclass
from fractions import Fraction
from math import isqrt

Number = int | Fraction
"""A whole number or a fraction; never a float. Whole numbers are faster."""

Vector = tuple[Number, Number]
"""A place, or a way from one to another, by two components."""

DECIMALS = 10 ** 12
"""How finely a root is worked out that is no whole number: by the part of its unit."""


def between(first: Vector, second: Vector) -> Vector:
    """The way from the first place to the second."""
    return second[0] - first[0], second[1] - first[1]


def dot(first: Vector, second: Vector) -> Number:
    """The scalar product."""
    return first[0] * second[0] + first[1] * second[1]


def cross(first: Vector, second: Vector) -> Number:
    """Twice the area that the two ways span, above 0 where the second turns to the left."""
    return first[0] * second[1] - first[1] * second[0]


def square(way: Vector) -> Number:
    """The square of the length."""
    return dot(way, way)


def root(value: Number) -> Fraction:
    """The square root of a number that isn't negative, rounded down to `DECIMALS`."""
    return Fraction(isqrt(int(value * DECIMALS ** 2)), DECIMALS)


def root_up(value: Number) -> int:
    """The least whole number that is at least the root of a number that isn't negative."""
    whole = -(-value.numerator // value.denominator)
    return isqrt(whole - 1) + 1 if whole > 0 else 0


def off_line(way: Vector, step: Vector) -> Fraction:
    """How far the end of a step lies from the line that a way leads along, where both begin in one
    place: from that place where the way is none. Rounded as `root`."""
    if not any(way):
        return root(square(step))
    return abs(Fraction(cross(way, step))) / root(square(way))


@dataclass(frozen=True)
class Root:
    """The number `sign` times the square root of `square` / `below`: the first isn't negative, the
    second is above 0."""

    sign: int
    square: Number
    below: Number = 1

    def at_most(self, limit: Number) -> bool:
        """Whether the number is at most the limit."""
        if self.sign >= 0:
            return limit >= 0 and self.square <= limit * limit * self.below
        return limit >= 0 or self.square >= limit * limit * self.below

    def at_least(self, limit: Number) -> bool:
        """Whether the number is at least the limit."""
        if self.sign >= 0:
            return limit <= 0 or self.square >= limit * limit * self.below
        return limit <= 0 and self.square <= limit * limit * self.below


def quotient(above: Number, below_square: Number) -> Root:
    """The number `above` divided by the root of `below_square`, which is above 0."""
    return Root(-1 if above < 0 else 1, above * above, below_square)


def least(holds: Callable[[int], bool]) -> int:
    """The least whole number, from 0, for which it holds; it holds for all greater ones too."""
    if holds(0):
        return 0
    high = 1
    while not holds(high):
        high *= 2
    low = high // 2
    while high - low > 1:
        middle = (low + high) // 2
        low, high = (low, middle) if holds(middle) else (middle, high)
    return high


def off(root: Root, wanted: Number) -> int:
    """The least whole number T with the root within T of the number that is wanted."""
    if type(root.square) is int and root.below == 1 and root.sign > 0 and type(wanted) is int:
        below = isqrt(root.square)
        above = below if below * below == root.square else below + 1
        return max(0, above - wanted, wanted - below)
    return least(lambda t: root.at_most(wanted + t) and root.at_least(wanted - t))


def length(way: Vector) -> Root:
    """The length of a way."""
    return Root(1, square(way))


def apart(first: Vector, second: Vector) -> int:
    """The least whole number within which two places are one."""
    return off(length(between(first, second)), 0)


def roots_apart(first: Number, second: Number) -> int:
    """The least whole number T within which the roots of two numbers are equal."""
    greater, lesser = max(first, second), min(first, second)
    # root(greater) <= root(lesser) + t, squared: greater - lesser - t*t <= root(4*t*t*lesser)
    return least(lambda t: Root(1, 4 * t * t * lesser).at_least(greater - lesser - t * t))


def whole_up(value: Number) -> int:
    """The least whole number that is at least the size of the value."""
    return -(-abs(value.numerator) // value.denominator)


def whole_near(value: Number) -> int:
    """The nearest whole number, the greater of two that are as near."""
    return (2 * value.numerator + value.denominator) // (2 * value.denominator)
