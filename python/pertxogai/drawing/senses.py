"""What the drawn places decide where a constraint leaves it to them.

Where a number that decides is 0, it counts as plus, as in the language. Points that are one by
the drawing's words count as drawn where the first of them is (`Meetings.drawn`).
"""

from __future__ import annotations

from dataclasses import dataclass
from enum import Enum
from fractions import Fraction

from pertxogai.cached import cached_on
from pertxogai.drawing.constraints import (
    AngleBetween, Degrees, Ratio, Sense, Tangent, XDistance, YDistance)
from pertxogai.drawing.drawing import Drawing
from pertxogai.drawing.geometry import Axis
from pertxogai.drawing.references import PointRef, ShapeRef, Which
from pertxogai.exact import cross, dot

Vector = tuple[Fraction, Fraction]
"""A direction by its two components, of any length."""


@dataclass(frozen=True)
class Slope:
    """A turn by its tangent: by at most a right angle with the tangent p/q, to the left if p is
    above 0, and by another half turn if `backward` is set. q isn't negative."""

    p: int
    q: int
    backward: bool


Turn = Degrees | Slope
"""A turn from one direction to another: in degrees counter-clockwise, above -180 and at most 180,
or by its tangent."""


class Touch(Enum):
    """How two circles touch."""

    OUTSIDE = "outside"
    INSIDE = "inside"


def way(drawing: Drawing, line: ShapeRef) -> Vector:
    """The drawn direction of a segment, from start to end, or of an axis."""
    shape = drawing.shape(line.name)
    if isinstance(shape, Axis):
        return (Fraction(0), Fraction(1)) if shape.upwards else (Fraction(1), Fraction(0))
    start, end = (drawing.meetings.drawn(PointRef(line.name, which))
                  for which in (Which.START, Which.END))
    return start.way_to(end)


def turn(drawing: Drawing, angle: AngleBetween) -> Turn:
    """The turn of an angle, from the first line's direction to the second's."""
    if isinstance(angle.value, Degrees) and angle.sense is Sense.SIGNED:
        return _signed_turn(angle)
    first, second = way(drawing, angle.first), way(drawing, angle.second)
    left, ahead = cross(first, second) >= 0, dot(first, second) >= 0
    match angle.value, angle.sense:
        case Degrees(value), _:
            return _drawn_degrees(drawing, angle, value, left, ahead)
        case Ratio(p, q), Sense.SIGNED:
            return Slope(p, q, q * dot(first, second) + p * cross(first, second) < 0)
        case Ratio(p, q), _:
            return Slope(abs(p) if left == ahead else -abs(p), q, not ahead)
    raise AssertionError(angle)


@cached_on
def _signed_turn(angle: AngleBetween) -> Degrees:
    """The turn of an angle in degrees with a sign, wherever its lines are drawn."""
    assert isinstance(angle.value, Degrees)
    return Degrees(_within_half_turn(angle.value.value))


def _drawn_degrees(drawing: Drawing, angle: AngleBetween, value: Fraction, left: bool,
                   ahead: bool) -> Degrees:
    """The turn for an angle without a sign: of the corner, else of the crossing lines."""
    corner = drawing.meetings.corner(angle.first, angle.second)
    if corner is not None:
        # Both rays leave the corner, or both come to it: else one direction is turned round.
        size = value if corner.first.which is corner.second.which else 180 - value
        return Degrees(size if left else -size)
    size = value if (value <= 90) == ahead else 180 - value
    return Degrees(size if left else -size)


def run_um(drawing: Drawing, distance: XDistance | YDistance) -> Fraction:
    """The signed x or y distance, second minus first, in micrometres."""
    if distance.sense is Sense.SIGNED:
        return distance.value_um
    return distance.value_um if drawing.meetings.is_ahead(distance) else -distance.value_um


def touch(drawing: Drawing, tangent: Tangent) -> Touch:
    """How the two circles of a tangent touch: inside if the distance of the drawn centres is nearer
    to the difference of the drawn radii than to their sum, that is, less than the greater
    radius."""
    first, second = (drawing.meetings.drawn(PointRef(each.name, Which.CENTRE))
                     for each in (tangent.first, tangent.second))
    apart = first.way_to(second)
    greater = max(drawing.drawn_radius_um(each.name) for each in (tangent.first, tangent.second))
    return Touch.INSIDE if dot(apart, apart) < greater * greater else Touch.OUTSIDE


def _within_half_turn(degrees: Fraction) -> Fraction:
    rest = degrees % 360
    return rest if rest <= 180 else rest - 360
