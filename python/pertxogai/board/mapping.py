"""Ways in which a drawing's places are carried over to those of a copy: by a shift, round a centre,
or mirrored. Places are in micrometres, and those of a copy are rounded to whole ones."""
from __future__ import annotations

import math
from dataclasses import dataclass
from fractions import Fraction

from pertxogai.drawing import Place

PointUm = tuple[float, float]
"""A place or a way, in micrometres."""


@dataclass(frozen=True)
class Mapping:
    """Where a place goes: x' = a x - s b y + x_um, y' = b x + s a y + y_um, where s is -1 if it
    mirrors, and 1 if not."""

    a: float = 1.0
    b: float = 0.0
    x_um: float = 0.0
    y_um: float = 0.0
    mirrors: bool = False

    def at(self, place: Place) -> Place:
        """Where a place goes, to the next micrometre."""
        x, y = self.exactly(numbers(place))
        return rounded(x, y)

    def exactly(self, place: PointUm) -> PointUm:
        """Where a place goes."""
        (x, y), side = place, -1.0 if self.mirrors else 1.0
        return (self.a * x - side * self.b * y + self.x_um,
                self.b * x + side * self.a * y + self.y_um)

    @property
    def shifts(self) -> bool:
        """Whether all goes the same way further, or stays."""
        return not self.mirrors and self.a == 1.0 and self.b == 0.0


def shift(dx_um: float, dy_um: float) -> Mapping:
    """A way further."""
    return Mapping(x_um=dx_um, y_um=dy_um)


def turn(centre: PointUm, radians: float) -> Mapping:
    """Round a centre, counter-clockwise."""
    cos, sin = math.cos(radians), math.sin(radians)
    x, y = centre
    return Mapping(cos, sin, x - cos * x + sin * y, y - sin * x - cos * y)


def mirror(start: PointUm, end: PointUm) -> Mapping:
    """Mirrored in the line through two places."""
    double = 2 * math.atan2(end[1] - start[1], end[0] - start[0])
    cos, sin = math.cos(double), math.sin(double)
    x, y = start
    return Mapping(cos, sin, x - cos * x - sin * y, y - sin * x + cos * y, mirrors=True)


def numbers(place: Place) -> PointUm:
    """A place as floats."""
    return float(place.x_um), float(place.y_um)


def rounded(x_um: float, y_um: float) -> Place:
    """A place, to the next micrometre."""
    return Place(Fraction(round(x_um)), Fraction(round(y_um)))
