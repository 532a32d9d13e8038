"""The shapes that a designer draws.

Their places are rough: they say which way round things lie, and the constraints say how large
they are. A place that is shared with a shape further up is written as a reference to that
shape's point, and is that very point. Shapes marked `outer` are given from outside the drawing
(an edge of another part) and lie exactly where they are drawn, measured from the origin.
Construction shapes count as others do, and are no edge of the part.
"""

from __future__ import annotations

from dataclasses import dataclass
from fractions import Fraction

from pertxogai.drawing.places import Place
from pertxogai.drawing.references import PointRef

Anchor = Place | PointRef
"""A drawn position, or the point of an earlier shape that the shape shares."""


@dataclass(frozen=True)
class Point:
    """A point."""

    name: str
    at: Place
    construction: bool = False
    outer: bool = False


@dataclass(frozen=True)
class Segment:
    """A straight edge from `start` to `end`; its direction is from start to end."""

    name: str
    start: Anchor
    end: Anchor
    construction: bool = False
    outer: bool = False


@dataclass(frozen=True)
class Circle:
    """A whole circle; `radius_um` is the drawn radius, in micrometres, above 0."""

    name: str
    centre: Anchor
    radius_um: Fraction
    construction: bool = False
    outer: bool = False


@dataclass(frozen=True)
class Arc:
    """An arc of a circle around `centre`, counter-clockwise from `start` to `end`. The drawn radius
    is the distance from the drawn centre to the drawn start; the drawn end may be off the circle,
    since it is rough. Both ends lie on the arc's circle by what an arc is; this takes no
    constraint."""

    name: str
    centre: Anchor
    start: Anchor
    end: Anchor
    construction: bool = False
    outer: bool = False


Shape = Point | Segment | Circle | Arc
"""A shape of a drawing: drawn positions in micrometres."""


@dataclass(frozen=True)
class Origin:
    """The origin of the datum, at 0 0."""


@dataclass(frozen=True)
class Axis:
    """One of the datum's two lines through the origin: the x axis to the right, or the y axis
    upwards."""

    upwards: bool


Datum = Origin | Axis
"""The datum, which every drawing has: the origin, and the two axes through it."""
