"""Cosine and sine of a number of degrees, enclosed by fractions."""

from __future__ import annotations

from fractions import Fraction
from functools import cache
from typing import NamedTuple

_ONE = 10 ** 60
_SLACK = 1000
"""The sums below are off by less than this many units of 1 / _ONE: each of fewer than 100 terms
is rounded by at most two units, and pi by fewer than 200."""


class Enclosed(NamedTuple):
    """A number that is at least `low` and at most `high`."""

    low: Fraction
    high: Fraction

    def times(self, factor: int | Fraction) -> "Enclosed":
        """The number times a fraction."""
        ends = sorted((self.low * factor, self.high * factor))
        return Enclosed(ends[0], ends[1])


def exactly(value: int | Fraction) -> Enclosed:
    """A number that is known."""
    return Enclosed(Fraction(value), Fraction(value))


def cos_sin(degrees: Fraction) -> tuple[Enclosed, Enclosed]:
    """The cosine and the sine, each within 10^-56; those of whole right angles exactly."""
    quarters, rest = divmod(degrees % 360, 90)
    cosine, sine = (exactly(1), exactly(0)) if rest == 0 else _within_a_quarter(rest)
    for _ in range(int(quarters)):
        cosine, sine = sine.times(Fraction(-1)), cosine
    return cosine, sine


def _within_a_quarter(degrees: Fraction) -> tuple[Enclosed, Enclosed]:
    angle = degrees * _pi() / 180
    scaled = angle.numerator // angle.denominator
    return _series(scaled, 0), _series(scaled, 1)


def _series(angle: int, first: int) -> Enclosed:
    """The series of the cosine, or of the sine if `first` is 1, of an angle in 1 / _ONE."""
    term = angle if first else _ONE
    total, power = term, first
    while term:
        power += 2
        term = -term * angle * angle // (_ONE * _ONE * power * (power - 1))
        term = 0 if term == -1 else term
        total += term
    return Enclosed(Fraction(total - _SLACK, _ONE), Fraction(total + _SLACK, _ONE))


@cache
def _pi() -> int:
    """Pi in units of 1 / _ONE, by Machin: 16 arctan(1/5) - 4 arctan(1/239)."""
    return 16 * _arctan_of(5) - 4 * _arctan_of(239)


def _arctan_of(inverse: int) -> int:
    term = _ONE // inverse
    total, divisor, sign = term, 1, 1
    while term:
        term //= inverse * inverse
        divisor, sign = divisor + 2, -sign
        total += sign * (term // divisor)
    return total
