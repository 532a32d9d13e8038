"""Numbers with units, exact as far as fractions go."""

from __future__ import annotations

from collections.abc import Iterable
from dataclasses import dataclass, replace
from decimal import Decimal
from fractions import Fraction
from functools import reduce
from math import isqrt

from pertxogai.drawing.places import UM_PER_MM

MOST_BITS = 1_000
"""No numerator and no denominator has more bits: a chain of products would take any time."""

_ROOT = 10 ** 30
"""How finely what has a root in it that is no fraction is rounded: to this part of one."""

_NOTHING = Fraction(1, 10 ** 15)
"""A sum with such a root that is a smaller part of what is added is 0: the rest is rounding."""


class Misfit(Exception):
    """Numbers can't be reckoned with so. The message says what is wrong, in words that follow a
    name."""


@dataclass(frozen=True)
class Quantity:
    """A number of millimetres to the power `length`, and of degrees to the power `angle`. A number
    with neither is plain: beside millimetres it counts as millimetres. exact: false if it contains
    a root that is no fraction, which is computed to thirty decimals."""

    number: Fraction
    length: int = 0
    angle: int = 0
    exact: bool = True

    @property
    def is_plain(self) -> bool:
        """Whether it has no unit."""
        return not self.length and not self.angle

    def plus(self, other: Quantity) -> Quantity:
        """The sum. Raises Misfit if the units don't fit."""
        length, angle = self._unit_with(other)
        exact, number = self.exact and other.exact, self.number + other.number
        if not exact and abs(number) < _NOTHING * max(abs(self.number), abs(other.number)):
            number = Fraction(0)
        return _checked(Quantity(number, length, angle, exact))

    def times(self, other: Quantity) -> Quantity:
        """The product."""
        return _checked(Quantity(self.number * other.number, self.length + other.length,
                                 self.angle + other.angle, self.exact and other.exact))

    def negative(self) -> Quantity:
        """The number with the other sign."""
        return replace(self, number=-self.number)

    def inverse(self) -> Quantity:
        """The reciprocal. Raises Misfit for 0."""
        if not self.number:
            raise Misfit("comes to 0, and nothing is divided by 0")
        return _checked(Quantity(1 / self.number, -self.length, -self.angle, self.exact))

    def root(self) -> Quantity:
        """The square root. Raises Misfit for a negative number, or a unit without a root."""
        if self.number < 0:
            raise Misfit(f"comes to {self.text()}, which has no square root")
        if self.length % 2 or self.angle % 2:
            raise Misfit(f"is in {self.unit_text()}, which has no square root: write sqrt of a "
                         "number, or of mm times mm")
        root, exact = _root(self.number)
        return _checked(Quantity(root, self.length // 2, self.angle // 2, self.exact and exact))

    def um(self) -> Fraction:
        """A length in micrometres. Raises Misfit for another unit."""
        if self.angle or self.length not in (0, 1):
            raise Misfit(f"is in {self.unit_text()}, and no length")
        return self.number * UM_PER_MM

    def degrees(self) -> Fraction:
        """An angle in degrees. Raises Misfit for another unit."""
        if self.is_plain:
            raise Misfit("is a number without a unit, and no angle: write deg behind a number in "
                         "it, such as 60deg")
        if self.length or self.angle != 1:
            raise Misfit(f"is in {self.unit_text()}, and no angle")
        return self.number

    def unit_text(self) -> str:
        """Its unit, such as `mm`, `mm²`, `deg/mm`; empty if it is plain."""
        above = [_power("mm", self.length), _power("deg", self.angle)]
        below = [_power("mm", -self.length), _power("deg", -self.angle)]
        over = "·".join(filter(None, above))
        return "/".join([over or "1", *filter(None, below)]) if any(below) else over

    def text(self) -> str:
        """The number with its unit, for people to read: to six decimals, or below 1 to six
        significant digits; with 'about' if that isn't the exact number."""
        size, number = abs(self.number), float(self.number)
        shown = f"{number:.6f}" if size >= 1 else format(Decimal(f"{number:.6g}"), "f")
        about = "" if Fraction(shown) == self.number else "about "
        if "." in shown:
            shown = shown.rstrip("0").rstrip(".")
        unit = self.unit_text()
        return f"{about}{shown} {unit}" if unit else about + shown

    def _unit_with(self, other: Quantity) -> tuple[int, int]:
        """The unit of a sum: that of both, or of the one that isn't plain where that has no
        degrees."""
        mine, others = (self.length, self.angle), (other.length, other.angle)
        if mine == others or other.is_plain and not self.angle:
            return mine
        if self.is_plain and not other.angle:
            return others
        raise Misfit(f"{_is_in(other)}, and what stands before it {_is_in(self)}")


def least(quantities: Iterable[Quantity]) -> Quantity:
    """The least of some. Raises Misfit where their units don't fit."""
    return reduce(lambda one, other: _chosen(one, other, other.number < one.number), quantities)


def greatest(quantities: Iterable[Quantity]) -> Quantity:
    """The greatest of some. Raises Misfit where their units don't fit."""
    return reduce(lambda one, other: _chosen(one, other, other.number > one.number), quantities)


def _chosen(one: Quantity, other: Quantity, takes_other: bool) -> Quantity:
    length, angle = one._unit_with(other)
    return replace(other if takes_other else one, length=length, angle=angle)


def _checked(quantity: Quantity) -> Quantity:
    """The quantity, to thirty places where it isn't exact. Raises Misfit where its number is too
    long."""
    if not quantity.exact:
        quantity = replace(quantity, number=Fraction(round(quantity.number * _ROOT), _ROOT))
    number = quantity.number
    if max(number.numerator.bit_length(), number.denominator.bit_length()) > MOST_BITS:
        raise Misfit("leads to a number of hundreds of digits: write shorter numbers")
    return quantity


def _root(number: Fraction) -> tuple[Fraction, bool]:
    """The root of what isn't negative, and whether it is exact."""
    above, below = isqrt(number.numerator), isqrt(number.denominator)
    if (above * above, below * below) == (number.numerator, number.denominator):
        return Fraction(above, below), True
    square = number.numerator * number.denominator * _ROOT ** 2
    return Fraction(isqrt(square), number.denominator * _ROOT), False


def _power(unit: str, power: int) -> str:
    if power <= 0:
        return ""
    return unit if power == 1 else unit + "".join("⁰¹²³⁴⁵⁶⁷⁸⁹"[int(it)] for it in str(power))


def _is_in(quantity: Quantity) -> str:
    return "has no unit" if quantity.is_plain else f"is in {quantity.unit_text()}"
