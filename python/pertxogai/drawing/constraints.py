"""The constraints that a designer gives, each a dataclass with the name its owner gave it.

Lengths and radii are in micrometres. A value that is written as an expression has that in
`expression`, and what it comes to beside it; how far it may lie off stands in `tolerance`. A
constraint without a name is called by its place in `Drawing.constraints`, counted from 1
(`Drawing.called`).

A line is a `ShapeRef` to a segment or to an axis; a segment counts as the endless line through
its ends wherever a line is meant. A rim is a `ShapeRef` to a circle or an arc; an arc counts as
its whole circle.
"""

from __future__ import annotations

from dataclasses import dataclass, field
from enum import Enum
from fractions import Fraction
from typing import TYPE_CHECKING

from pertxogai.drawing.references import Pair, PointRef, ShapeRef
from pertxogai.drawing.tolerances.tolerance import Tolerance

if TYPE_CHECKING:  # Few drawings have any.
    from pertxogai.drawing.values.expression import Expression


class Sense(Enum):
    """What decides the sign of a value."""

    DRAWN = "drawn"
    """The value is given without a sign, and the drawing decides, as on paper."""
    SIGNED = "signed"
    """The sign is part of the value."""


@dataclass(frozen=True)
class Degrees:
    """An angle in degrees, exactly as written."""

    value: Fraction


@dataclass(frozen=True)
class Ratio:
    """An angle by its tangent p/q; q = 0 is a right angle. p isn't 0, and q isn't negative."""

    p: int
    q: int


AngleValue = Degrees | Ratio
"""An angle as written."""


@dataclass(frozen=True)
class Coincident:
    """Two points are one."""

    first: PointRef
    second: PointRef
    name: str | None = None


@dataclass(frozen=True)
class PointOn:
    """A point lies on a line, or on a circle or the circle of an arc."""

    point: PointRef
    curve: ShapeRef
    name: str | None = None


@dataclass(frozen=True)
class Horizontal:
    """A segment, or the way between two points, is parallel to the x axis, in either direction."""

    of: ShapeRef | Pair
    name: str | None = None


@dataclass(frozen=True)
class Vertical:
    """A segment, or the way between two points, is parallel to the y axis, in either direction."""

    of: ShapeRef | Pair
    name: str | None = None


@dataclass(frozen=True)
class Parallel:
    """Two lines have the same direction, or opposite ones."""

    first: ShapeRef
    second: ShapeRef
    name: str | None = None


@dataclass(frozen=True)
class Perpendicular:
    """Two lines are at a right angle, to either side. With `at` they also meet there: the points of
    the pair, an end of each, coincide."""

    first: ShapeRef
    second: ShapeRef
    at: Pair | None = None
    name: str | None = None


@dataclass(frozen=True)
class Collinear:
    """Two lines lie on one line."""

    first: ShapeRef
    second: ShapeRef
    name: str | None = None


@dataclass(frozen=True)
class AngleBetween:
    """The angle from the first line to the second; `pertxogai.drawing.turn` gives it as a turn.

    Sense.SIGNED, in degrees: the first direction, turned counter-clockwise by the value (clockwise
    if it is negative), is the second. As a ratio: the tangent of that turn, which fixes it up to a
    half turn; the drawing decides between the two.

    Sense.DRAWN: the value is as on paper, without a sign, and the drawing decides to which side.
    In degrees it is the angle, below 180, of the corner that the two segments share. If they share
    none, the lines make this angle, and the drawing decides which of the two angles of crossing
    lines it is (60 and 120 degrees then mean the same). A ratio is always an angle of lines."""

    first: ShapeRef
    second: ShapeRef
    value: AngleValue
    sense: Sense = Sense.DRAWN
    name: str | None = None
    expression: Expression | None = field(default=None, kw_only=True)
    tolerance: Tolerance | None = field(default=None, kw_only=True)


@dataclass(frozen=True)
class Length:
    """The length of a segment, above 0."""

    segment: ShapeRef
    value_um: Fraction
    name: str | None = None
    expression: Expression | None = field(default=None, kw_only=True)
    tolerance: Tolerance | None = field(default=None, kw_only=True)


@dataclass(frozen=True)
class Distance:
    """The distance of two points, above 0."""

    first: PointRef
    second: PointRef
    value_um: Fraction
    name: str | None = None
    expression: Expression | None = field(default=None, kw_only=True)
    tolerance: Tolerance | None = field(default=None, kw_only=True)


@dataclass(frozen=True)
class XDistance:
    """The distance from the first point to the second along the x axis. Sense.SIGNED: x of the
    second minus x of the first. Sense.DRAWN: not negative, and the drawing decides to which
    side."""

    first: PointRef
    second: PointRef
    value_um: Fraction
    sense: Sense = Sense.DRAWN
    name: str | None = None
    expression: Expression | None = field(default=None, kw_only=True)
    tolerance: Tolerance | None = field(default=None, kw_only=True)


@dataclass(frozen=True)
class YDistance:
    """The distance from the first point to the second along the y axis; signs as for x."""

    first: PointRef
    second: PointRef
    value_um: Fraction
    sense: Sense = Sense.DRAWN
    name: str | None = None
    expression: Expression | None = field(default=None, kw_only=True)
    tolerance: Tolerance | None = field(default=None, kw_only=True)


@dataclass(frozen=True)
class PointLineDistance:
    """The distance of a point from a line, measured perpendicular to it, above 0, on either
    side."""

    point: PointRef
    line: ShapeRef
    value_um: Fraction
    name: str | None = None
    expression: Expression | None = field(default=None, kw_only=True)
    tolerance: Tolerance | None = field(default=None, kw_only=True)


@dataclass(frozen=True)
class ParallelDistance:
    """The distance of two parallel lines, above 0. It is one dimension: other constraints have to
    make the lines parallel."""

    first: ShapeRef
    second: ShapeRef
    value_um: Fraction
    name: str | None = None
    expression: Expression | None = field(default=None, kw_only=True)
    tolerance: Tolerance | None = field(default=None, kw_only=True)


@dataclass(frozen=True)
class Radius:
    """The radius of a circle or arc, above 0."""

    rim: ShapeRef
    value_um: Fraction
    name: str | None = None
    expression: Expression | None = field(default=None, kw_only=True)
    tolerance: Tolerance | None = field(default=None, kw_only=True)


@dataclass(frozen=True)
class Diameter:
    """The diameter of a circle or arc, above 0."""

    rim: ShapeRef
    value_um: Fraction
    name: str | None = None
    expression: Expression | None = field(default=None, kw_only=True)
    tolerance: Tolerance | None = field(default=None, kw_only=True)


@dataclass(frozen=True)
class Tangent:
    """A line and a circle or arc touch, or two circles or arcs do. Without `at` they may touch
    anywhere; two circles touch from outside or one inside the other, as drawn
    (`pertxogai.drawing.touch`). With `at`, an end of one and an end of the other coincide, and the
    two touch there: the centres lie on the normal. Two lines that touch are `Collinear`."""

    first: ShapeRef
    second: ShapeRef
    at: Pair | None = None
    name: str | None = None


@dataclass(frozen=True)
class Equal:
    """Two segments have the same length, or two circles or arcs the same radius."""

    first: ShapeRef
    second: ShapeRef
    name: str | None = None


@dataclass(frozen=True)
class Concentric:
    """Two circles or arcs have the same centre."""

    first: ShapeRef
    second: ShapeRef
    name: str | None = None


@dataclass(frozen=True)
class Symmetric:
    """Two points are mirror images: in a line, or in a point, which is then their midpoint."""

    first: PointRef
    second: PointRef
    about: ShapeRef | PointRef
    name: str | None = None


@dataclass(frozen=True)
class Midpoint:
    """A point is the midpoint of a segment."""

    point: PointRef
    segment: ShapeRef
    name: str | None = None


@dataclass(frozen=True)
class Fixed:
    """A point, or a shape with all its points and its radius, lies exactly where it is drawn,
    measured from the origin."""

    what: PointRef | ShapeRef
    name: str | None = None


Constraint = (
    Coincident | PointOn | Horizontal | Vertical | Parallel | Perpendicular | Collinear
    | AngleBetween | Length | Distance | XDistance | YDistance | PointLineDistance
    | ParallelDistance | Radius | Diameter | Tangent | Equal | Concentric | Symmetric
    | Midpoint | Fixed
)
"""A constraint of a drawing: between shapes, or of one shape and a position."""

Valued = (AngleBetween | Length | Distance | XDistance | YDistance | PointLineDistance
          | ParallelDistance | Radius | Diameter)
"""The constraints that have a value."""

VALUED = (AngleBetween, Length, Distance, XDistance, YDistance, PointLineDistance,
          ParallelDistance, Radius, Diameter)
"""Their types."""

SENSED = (AngleBetween, XDistance, YDistance)
"""The types of those whose side is drawn, or told by a sign."""
