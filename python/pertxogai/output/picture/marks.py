"""What a picture is made of, in millimetres, x to the right and y up."""
from __future__ import annotations

from dataclasses import dataclass, field
from enum import Enum

PointMm = tuple[float, float]
"""x and y in millimetres."""


class Manner(Enum):
    """The style of a mark; the value is its class in the SVG."""

    EDGE = "edge"
    CONSTRUCTION = "construction"
    DATUM = "datum"
    BAR = "bar"
    SPARE = "spare"
    FREE = "free"
    MOVE = "move"


@dataclass(frozen=True)
class Ink:
    """How a mark is drawn. part: the number, from 1, of the rigid cluster whose colour it has, or
    None for the common colour."""

    manner: Manner = Manner.EDGE
    part: int | None = None


@dataclass(frozen=True)
class Dot:
    """A point."""

    at: PointMm
    name: str = ""
    ink: Ink = Ink()


@dataclass(frozen=True)
class Stroke:
    """A segment."""

    start: PointMm
    end: PointMm
    name: str = ""
    ink: Ink = Ink()


@dataclass(frozen=True)
class Ring:
    """A circle."""

    centre: PointMm
    radius: float
    name: str = ""
    ink: Ink = Ink()


@dataclass(frozen=True)
class Bow:
    """An arc from start to end, counter-clockwise."""

    centre: PointMm
    start: PointMm
    end: PointMm
    name: str = ""
    ink: Ink = Ink()


Mark = Dot | Stroke | Ring | Bow
"""The drawing of a shape."""


@dataclass(frozen=True)
class LengthBar:
    """A dimension between two points: a thin bar, and its text beside it."""

    start: PointMm
    end: PointMm
    text: str
    ink: Ink = Ink(Manner.BAR)


@dataclass(frozen=True)
class Tag:
    """A text near a point, such as that of an angle at a corner; or, with a radius, outside or
    inside a circle."""

    at: PointMm
    radius: float
    text: str
    ink: Ink = Ink(Manner.BAR)


@dataclass(frozen=True)
class Square:
    """The small square that marks a right angle in a corner, with sides along two directions."""

    at: PointMm
    first: PointMm
    second: PointMm
    ink: Ink = Ink(Manner.BAR)


@dataclass(frozen=True)
class Arrow:
    """That a point at a place still moves along a direction, a way of length 1, and back."""

    at: PointMm
    way: PointMm
    ink: Ink = Ink(Manner.MOVE)


Dimension = LengthBar | Tag | Square | Arrow
"""The drawing of a dimension."""


@dataclass(frozen=True)
class Scene:
    """Everything that a picture shows, and lines of text below it, each with the colour of a
    cluster."""

    title: str
    marks: tuple[Mark, ...]
    dimensions: tuple[Dimension, ...] = ()
    legend: tuple[tuple[str, Ink], ...] = field(default=())
