"""What a constraint speaks of: a point of a shape, a whole shape, or two points."""

from __future__ import annotations

from dataclasses import dataclass
from enum import Enum


class Which(Enum):
    """Which point of a shape is meant; the values are the words of the text."""

    AT = "at"
    """The position of a point, and of the origin."""
    START = "start"
    """The start of a segment, or of an arc, which runs counter-clockwise."""
    END = "end"
    """The end of a segment or an arc."""
    CENTRE = "centre"
    """The centre of a circle or an arc."""

    __hash__ = object.__hash__


@dataclass(frozen=True)
class PointRef:
    """A point of the drawing: the point `which` of the shape called `shape`."""

    shape: str
    which: Which = Which.AT

    def __str__(self) -> str:
        return self.shape if self.which is Which.AT else f"{self.shape}.{self.which.value}"


@dataclass(frozen=True)
class ShapeRef:
    """A whole shape: a segment or axis as a line, a circle or an arc as its circle."""

    name: str

    def __str__(self) -> str:
        return self.name


@dataclass(frozen=True)
class Pair:
    """Two points, in this order."""

    first: PointRef
    second: PointRef

    def __str__(self) -> str:
        return f"{self.first} {self.second}"


ORIGIN = PointRef("Origin")
"""The origin of the datum, at 0 0."""

X_AXIS = ShapeRef("XAxis")
"""The x axis of the datum, through the origin to the right."""

Y_AXIS = ShapeRef("YAxis")
"""The y axis of the datum, through the origin upwards."""

DATUM_NAMES = frozenset({ORIGIN.shape, X_AXIS.name, Y_AXIS.name})
"""The names that no shape may have."""
