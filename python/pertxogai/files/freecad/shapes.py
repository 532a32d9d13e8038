"""The shapes of a FreeCAD sketch, as shapes of a drawing.

FreeCAD numbers them from 0; the drawing calls them by kind and number from 1, as FreeCAD's list
of elements does: Line1, Circle5. Outer geometry is -3, -4 and so on there, and here Outer1, Outer2.
"""

from __future__ import annotations

import math
from collections.abc import Callable
from dataclasses import dataclass

from pertxogai.drawing import Arc, Circle, Point, Segment, Shape
from pertxogai.files.contents import LeftOut, NotSayable
from pertxogai.files.freecad.markup import Node
from pertxogai.files.freecad.numbers import check_finite, length_um, number, place

FIRST_OUTER = -3
"""FreeCAD's number of the first outer shape; -1 and -2 are the axes."""

_OTHERS = {"Ellipse": "ellipse", "ArcOfEllipse": "arc of an ellipse", "BSplineCurve": "spline",
           "ArcOfHyperbola": "arc of a hyperbola", "ArcOfParabola": "arc of a parabola"}
_FLAGS = "geometryModeFlags"
_CONSTRUCTION_FLAG = 1


@dataclass(frozen=True)
class Numbered:
    """A shape and FreeCAD's number of it; None where it was left out, whose name stays."""

    number: int
    name: str
    shape: Shape | None


@dataclass(frozen=True)
class _Dress:
    """How a shape is called and drawn."""

    name: str
    construction: bool
    outer: bool


def read_shapes(nodes: list[Node]) -> tuple[list[Numbered], list[LeftOut]]:
    """The shapes of a sketch's list `Geometry`, and those that were left out."""
    return _read([(count, node) for count, node in enumerate(nodes)])


def read_outer(nodes: list[Node]) -> tuple[list[Numbered], list[LeftOut]]:
    """The outer shapes of a list `ExternalGeo`, whose first two are the axes."""
    return _read([(-1 - count, node) for count, node in enumerate(nodes) if count >= 2])


def _read(entries: list[tuple[int, Node]]) -> tuple[list[Numbered], list[LeftOut]]:
    """The shapes of numbered entries."""
    shapes, left_out = [], []
    for count, node in entries:
        kind = node.get("type", "").rpartition("::")[2].removeprefix("Geom") or "unknown"
        name = _name(count, _KINDS[kind].word if kind in _KINDS else kind)
        dress = _Dress(name, _is_construction(node), count < 0)
        try:
            if kind not in _KINDS:
                raise NotSayable(f"a drawing has no {_OTHERS.get(kind, kind)}")
            shapes.append(Numbered(count, name, _KINDS[kind].read(body_of(node), dress)))
        except NotSayable as unsaid:
            shapes.append(Numbered(count, name, None))
            left_out.append(LeftOut(name, str(unsaid)))
    return shapes, left_out


def _name(count: int, word: str) -> str:
    """What the drawing calls a shape."""
    return f"{word}{count + 1}" if count >= 0 else f"Outer{FIRST_OUTER - count + 1}"


def number_of(name: str) -> int:
    """FreeCAD's number of the shape that the drawing calls so."""
    digits = len(name) - len(name.rstrip("0123456789"))
    word, count = name[:-digits], int(name[-digits:])
    return FIRST_OUTER + 1 - count if word == "Outer" else count - 1


def body_of(node: Node) -> Node:
    """The element of a shape's entry that has the numbers. Raises Unsaid where there is none."""
    for child in node.children:
        if child.tag not in ("GeoExtensions", "Construction"):
            return child
    raise NotSayable("its numbers aren't in the file")


def _is_construction(node: Node) -> bool:
    """Whether a shape is for construction: by a flag since 0.19, by an element before."""
    old = node.child("Construction")
    if old is not None:
        return old.get("value", "0") == "1"
    extensions = node.child("GeoExtensions")
    flags = [one.get(_FLAGS, "") for one in extensions.children] if extensions else []
    return any(flag[-1 - _CONSTRUCTION_FLAG:][:1] == "1" for flag in flags)


def _point(body: Node, dress: _Dress) -> Shape:
    at = place(number(body, "X"), number(body, "Y"))
    return Point(dress.name, at, dress.construction, dress.outer)


def _segment(body: Node, dress: _Dress) -> Shape:
    start = place(number(body, "StartX"), number(body, "StartY"))
    end = place(number(body, "EndX"), number(body, "EndY"))
    return Segment(dress.name, start, end, dress.construction, dress.outer)


def _circle(body: Node, dress: _Dress) -> Shape:
    centre = place(number(body, "CenterX"), number(body, "CenterY"))
    radius = length_um(number(body, "Radius"))
    return Circle(dress.name, centre, radius, dress.construction, dress.outer)


def _arc(body: Node, dress: _Dress) -> Shape:
    x, y, radius = number(body, "CenterX"), number(body, "CenterY"), number(body, "Radius")
    start, end = (place(x + radius * math.cos(angle), y + radius * math.sin(angle))
                  for angle in angles_of(body))
    return Arc(dress.name, place(x, y), start, end, dress.construction, dress.outer)


def angles_of(body: Node) -> tuple[float, float]:
    """The angles of an arc's ends to the x axis, counter-clockwise from the first to the second.
    FreeCAD tells them from an axis turned by AngleXU; an arc seen from behind starts at its end.
    Raises Unsaid where they are no numbers."""
    turn = number(body, "AngleXU", "0")
    start, end = (number(body, name) + turn for name in ("StartAngle", "EndAngle"))
    check_finite(start + end)
    if number(body, "NormalZ", "1") < 0:
        return math.pi - end, math.pi - start
    return start, end


def params_of(body: Node, start: float, end: float) -> tuple[float, float]:
    """FreeCAD's StartAngle and EndAngle of an arc whose ends stand at these angles to the x axis,
    counter-clockwise from the first to the second; the opposite of `angles_of`."""
    turn = number(body, "AngleXU", "0")
    if number(body, "NormalZ", "1") < 0:
        start, end = math.pi - end, math.pi - start
    first = (start - turn) % (2 * math.pi)
    opening = (end - start) % (2 * math.pi)
    return first, first + opening


@dataclass(frozen=True)
class _Kind:
    """What a kind of FreeCAD's is called in a drawing, and how it is read."""

    word: str
    read: Callable[[Node, _Dress], Shape]


_KINDS = {
    "Point": _Kind("Point", _point),
    "LineSegment": _Kind("Line", _segment),
    "Circle": _Kind("Circle", _circle),
    "ArcOfCircle": _Kind("Arc", _arc),
}
