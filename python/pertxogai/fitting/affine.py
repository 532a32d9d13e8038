"""Numbers that change evenly with how far dimensions lie off, read off one set of small offs.

Each off is a different power of one great number, so that of a sum of them, each times a fraction,
the fractions can be read like digits. That nothing is left over shows that it was such a sum."""
from __future__ import annotations

from collections.abc import Iterable, Mapping
from dataclasses import dataclass
from fractions import Fraction
from math import lcm
from typing import Generic, TypeVar

Key = TypeVar("Key")
BASE = 10 ** 9
"""Each off is this number of times as small as the one before."""
PARTS = 5040
"""A number changes for each micrometre or degree by whole parts of this, at most by a hundred
thousand."""


@dataclass(frozen=True)
class Affine:
    """A number that changes evenly with dimensions, in micrometres or degrees. at: what it is if no
    dimension is off. slopes: by how much it changes for each micrometre or degree by which a
    dimension is off, by the number of the dimension."""

    at: Fraction
    slopes: Mapping[int, Fraction]

    def value(self, offs: Mapping[int, Fraction]) -> Fraction:
        """Its value, in micrometres or degrees. offs: by how much each dimension is off, by the
        number of the dimension."""
        return Affines({0: self}).values(offs)[0] if self.slopes else self.at


class Affines(Generic[Key]):
    """Numbers that change evenly, by their keys, which are worked out together."""

    def __init__(self, of: Mapping[Key, Affine]) -> None:
        self._of = of
        self._per = lcm(*(slope.denominator for each in of.values()
                          for slope in each.slopes.values()))
        self._slopes = {key: [(number, int(slope * self._per))
                              for number, slope in each.slopes.items()]
                        for key, each in of.items()}

    def values(self, offs: Mapping[int, Fraction]) -> dict[Key, Fraction]:
        """Their values, in micrometres or degrees. offs: by how much each dimension is off, by the
        number of the dimension."""
        below = lcm(*(off.denominator for off in offs.values()))
        steps = {number: off.numerator * (below // off.denominator)
                 for number, off in offs.items()}
        return {key: _sum(self._of[key].at, sum(slope * steps[number] for number, slope in slopes
                                                if number in steps), self._per * below)
                for key, slopes in self._slopes.items()}


def _sum(number: Fraction, above: int, below: int) -> Fraction:
    """A number and the fraction above / below."""
    if not above:
        return number
    return Fraction(number.numerator * below + above * number.denominator,
                    number.denominator * below)


class Probe:
    """Small offs for the dimensions of some numbers, in micrometres or degrees."""

    def __init__(self, numbers: Iterable[int]) -> None:
        self._numbers = tuple(numbers)

    @property
    def numbers(self) -> frozenset[int]:
        """The dimensions."""
        return frozenset(self._numbers)

    def offs(self) -> dict[int, Fraction]:
        """How far each dimension is off."""
        return {number: Fraction(1, BASE ** place)
                for place, number in enumerate(self._numbers, start=1)}

    def affine(self, at: Fraction, there: Fraction) -> Affine | None:
        """A number, by what it is with nothing off, and with these offs; None where it doesn't
        change evenly."""
        digits = (there - at) * PARTS * BASE ** len(self._numbers)
        if digits.denominator != 1:
            return None
        left, slopes = digits.numerator, {}
        for number in reversed(self._numbers):
            digit = (left + BASE // 2) % BASE - BASE // 2
            left = (left - digit) // BASE
            if digit:
                slopes[number] = Fraction(digit, PARTS)
        return None if left else Affine(at, slopes)
