"""Whole-number arithmetic that drawing and measure share."""

from __future__ import annotations

from fractions import Fraction
from math import isqrt


def root_down(value: Fraction) -> int:
    """The greatest whole number whose square is at most `value`, which isn't negative."""
    return isqrt(value.numerator // value.denominator)


def root_up(value: Fraction) -> int:
    """The least whole number whose square is at least `value`, which isn't negative."""
    floor = root_down(value)
    return floor if floor * floor == value else floor + 1


def root_near(value: Fraction) -> int:
    """The whole number nearest to the root of `value`, which isn't negative."""
    floor = root_down(value)
    return floor if (2 * floor + 1) ** 2 > 4 * value else floor + 1
