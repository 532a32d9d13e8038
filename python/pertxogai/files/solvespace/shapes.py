"""What was drawn in a SolveSpace sketch, as shapes of a drawing.

SolveSpace calls each request by a number; request 4 is Line4 or Circle4 here. The entities of a
request have its number in their handle: the shape itself, and its points.
"""

from __future__ import annotations

from collections.abc import Mapping
from dataclasses import dataclass
from enum import IntEnum
from fractions import Fraction

from pertxogai.drawing import Arc, Circle, Place, Point, PointRef, Segment, Shape, Which
from pertxogai.files.contents import NotSayable
from pertxogai.files.solvespace.records import Record, length_um


class Request(IntEnum):
    """SolveSpace's numbers of what can be drawn in a plane and said in a drawing."""

    POINT = 101
    SEGMENT = 200
    CIRCLE = 400
    ARC = 500


_OTHERS = {100: "workplane", 300: "Bezier curve", 301: "closed spline", 600: "text", 700: "image"}

POINTS = {
    Request.POINT: (Which.AT,),
    Request.SEGMENT: (Which.START, Which.END),
    Request.CIRCLE: (Which.CENTRE,),
    Request.ARC: (Which.CENTRE, Which.START, Which.END),
}
"""Which points a request has, in the order of their numbers in the file."""

RADIUS_PLACE = 64
"""The place of a circle's radius among the numbers of its request."""


@dataclass(frozen=True)
class Drawn:
    """A request: its number, its kind, and the name of its shape."""

    number: int
    kind: Request
    name: str

    def places(self) -> Mapping[PointRef, int]:
        """The handle of the x of each point; that of its y is the next one."""
        return {PointRef(self.name, which): self.number << 16 | 16 + 3 * count
                for count, which in enumerate(POINTS[self.kind])}

    def radius(self) -> int:
        """The handle of a circle's radius."""
        return self.number << 16 | RADIUS_PLACE

    def entities(self) -> Mapping[int, PointRef]:
        """The points by the handles of their entities. A point is its request's own entity."""
        first = 0 if self.kind is Request.POINT else 1
        return {self.number << 16 | first + count: ref
                for count, ref in enumerate(self.places())}


def drawn(request: Record) -> Drawn:
    """What a request draws. Raises Unsaid where a drawing has no such shape."""
    kind, number = request.whole("type"), request.handle("h.v")
    if kind not in list(Request):
        raise NotSayable(f"a drawing has no {_OTHERS.get(kind, f'shape of kind {kind}')}")
    word = Request(kind).name.capitalize().replace("Segment", "Line")
    return Drawn(number, Request(kind), f"{word}{number}")


def shape(one: Drawn, numbers: Mapping[int, float], construction: bool) -> Shape:
    """The shape that stands at the file's numbers."""
    def at(which: Which) -> Place:
        x = one.places()[PointRef(one.name, which)]
        return Place(_value_um(numbers, x), _value_um(numbers, x + 1))

    match one.kind:
        case Request.POINT:
            return Point(one.name, at(Which.AT), construction)
        case Request.SEGMENT:
            return Segment(one.name, at(Which.START), at(Which.END), construction)
        case Request.CIRCLE:
            radius = _value_um(numbers, one.radius())
            return Circle(one.name, at(Which.CENTRE), radius, construction)
        case Request.ARC:
            return Arc(one.name, at(Which.CENTRE), at(Which.START), at(Which.END), construction)


def _value_um(numbers: Mapping[int, float], handle: int) -> Fraction:
    """A number of the file, in micrometres; one that isn't there is 0."""
    return length_um(numbers.get(handle, 0.0))
