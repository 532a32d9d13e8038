"""The constraints of a SolveSpace sketch, in a drawing's words."""

from __future__ import annotations

from collections.abc import Callable
from dataclasses import dataclass
from enum import IntEnum
from fractions import Fraction

from pertxogai.drawing import (
    ORIGIN, X_AXIS, Y_AXIS, AngleBetween, Coincident, Constraint, Degrees, Diameter, Distance,
    Equal, Fixed, Horizontal, Length, Midpoint, Pair, Parallel, Perpendicular, PointLineDistance,
    PointOn, PointRef, Sense, ShapeRef, Symmetric, Vertical, Which, XDistance, YDistance)
from pertxogai.files.contents import NotSayable
from pertxogai.files.solvespace.records import Record, length_um
from pertxogai.files.solvespace.shapes import Drawn, Request


class Kind(IntEnum):
    """SolveSpace's numbers of the constraints that can be said."""

    PTS_COINCIDENT = 20
    PT_PT_DISTANCE = 30
    PT_PLANE_DISTANCE = 31
    PT_LINE_DISTANCE = 32
    PROJ_PT_PT_DISTANCE = 34
    PT_IN_PLANE = 41
    PT_ON_LINE = 42
    EQ_LENGTH = 50
    SYMMETRIC = 60
    SYMMETRIC_H = 61
    SYMMETRIC_V = 62
    SYMMETRIC_LINE = 63
    AT_MIDPOINT = 70
    HORIZONTAL = 80
    VERTICAL = 81
    DIAMETER = 90
    PT_ON_CIRCLE = 100
    ANGLE = 120
    PARALLEL = 121
    PERPENDICULAR = 122
    ARC_LINE_TANGENT = 123
    CURVE_CURVE_TANGENT = 125
    EQUAL_RADIUS = 130
    LOCK_WHERE_DRAGGED = 200


COMMENT = 1000
"""SolveSpace's number of a note, which constrains nothing."""

_OTHERS = {
    33: "pt-face-distance", 43: "pt-on-face", 51: "length-ratio", 52: "eq-length-and-pt-ln-dist",
    53: "eq-pt-line-distances", 54: "eq-angle", 55: "eq-line-len-arc-len",
    56: "length-difference", 110: "same-orientation", 124: "cubic-line-tangent",
    210: "arc-arc-length-ratio", 211: "arc-line-length-ratio", 212: "arc-arc-len-difference",
    213: "arc-line-len-difference",
}
DIMENSIONS = frozenset({30, 31, 32, 33, 34, 51, 56, 90, 120, 210, 211, 212, 213})
"""SolveSpace's numbers of the constraints that have a value."""
X_PLANE, Y_PLANE = 0x00020000, 0x00030000
X_NORMAL, Y_NORMAL = 0x00020020, 0x00030020


@dataclass(frozen=True)
class Touch:
    """That two curves touch at an end of each, which other constraints make one point: the end
    of the first, and those of the second, of which one is meant."""

    first: PointRef
    second: tuple[PointRef, ...]


Said = Constraint | Touch

IsLeft = Callable[[ShapeRef, ShapeRef], bool]
"""Whether the second of two segments is drawn to the left of the first, seen along it."""


def name_of(record: Record) -> str:
    """The name that a constraint was given, as its comment; else what SolveSpace shows as its
    name."""
    given = " ".join(record.fields.get("comment", "").split())
    return given or shown_name_of(record)


def shown_name_of(record: Record) -> str:
    """What SolveSpace shows as the name of a constraint."""
    kind = record.whole("type")
    word = Kind(kind).name.lower().replace("_", "-") if kind in list(Kind) else _OTHERS.get(
        kind, f"kind-{kind}")
    return f"c{record.handle('h.v'):03x}-{word}"


class Plane:
    """The plane of a sketch and what was drawn in it. Every method raises Unsaid where a handle
    doesn't name what is asked for."""

    def __init__(self, shapes: list[Drawn], origins: frozenset[int], level: bool) -> None:
        """`origins` are the handles of the plane's origin; `level` is whether the plane is the
        xy plane, whose axes the reference planes stand on."""
        self._shapes = {one.number << 16: one for one in shapes}
        self._points = {handle: ref for one in shapes for handle, ref in one.entities().items()}
        self._points.update((handle, ORIGIN) for handle in origins)
        self._level = level

    def point(self, handle: int) -> PointRef:
        """A point of the sketch, or its origin."""
        if handle not in self._points:
            raise NotSayable("it refers to a point that isn't in this drawing")
        return self._points[handle]

    def line(self, handle: int) -> ShapeRef:
        """A segment of the sketch."""
        return ShapeRef(self._shape(handle, Request.SEGMENT).name)

    def rim(self, handle: int) -> ShapeRef:
        """A circle or an arc of the sketch."""
        return ShapeRef(self._shape(handle, Request.CIRCLE, Request.ARC).name)

    def ends(self, handle: int) -> tuple[PointRef, PointRef]:
        """The start and the end of a segment or an arc."""
        name = self._shape(handle, Request.SEGMENT, Request.ARC).name
        return PointRef(name, Which.START), PointRef(name, Which.END)

    def axis(self, handle: int) -> ShapeRef:
        """The axis that a reference plane shows as in this plane."""
        if not self._level or handle not in (X_PLANE, Y_PLANE):
            raise NotSayable("it refers to a plane that is no axis of this drawing")
        return Y_AXIS if handle == X_PLANE else X_AXIS

    def along(self, handle: int) -> ShapeRef:
        """The axis along which the normal of a reference plane runs."""
        if not self._level or handle not in (X_NORMAL, Y_NORMAL):
            raise NotSayable("it is projected on a line that is no axis of this drawing")
        return X_AXIS if handle == X_NORMAL else Y_AXIS

    def _shape(self, handle: int, *kinds: Request) -> Drawn:
        found = self._shapes.get(handle)
        if found is None or found.kind not in kinds:
            raise NotSayable("it refers to a shape that isn't in this drawing")
        return found


def say(record: Record, plane: Plane, is_left: IsLeft) -> Said:
    """What a drawing says for a constraint. Raises Unsaid."""
    kind = record.whole("type")
    if kind not in list(Kind):
        raise NotSayable("a drawing has no such constraint")
    match Kind(kind):
        case Kind.ANGLE:
            return _angle(record, plane, is_left)
        case Kind.ARC_LINE_TANGENT:
            end = plane.ends(record.handle("entityA.v"))[record.whole("other") % 2]
            return Touch(end, plane.ends(record.handle("entityB.v")))
        case Kind.CURVE_CURVE_TANGENT:
            first = plane.ends(record.handle("entityA.v"))[record.whole("other") % 2]
            second = plane.ends(record.handle("entityB.v"))[record.whole("other2") % 2]
            return Touch(first, (second,))
        case (Kind.PT_PT_DISTANCE | Kind.PT_LINE_DISTANCE | Kind.PT_PLANE_DISTANCE
              | Kind.PROJ_PT_PT_DISTANCE | Kind.DIAMETER):
            return _dimension(Kind(kind), record, plane)
        case (Kind.SYMMETRIC | Kind.SYMMETRIC_H | Kind.SYMMETRIC_V | Kind.SYMMETRIC_LINE):
            return _symmetric(Kind(kind), record, plane)
    return _plain(Kind(kind), record, plane)


def _plain(kind: Kind, record: Record, plane: Plane) -> Constraint:
    """A constraint without a value, of shapes."""
    first, second = record.handle("entityA.v"), record.handle("entityB.v")
    match kind:
        case Kind.EQ_LENGTH:
            return Equal(plane.line(first), plane.line(second))
        case Kind.EQUAL_RADIUS:
            return Equal(plane.rim(first), plane.rim(second))
        case Kind.HORIZONTAL:
            return Horizontal(_level(record, plane))
        case Kind.VERTICAL:
            return Vertical(_level(record, plane))
        case Kind.PARALLEL:
            return Parallel(plane.line(first), plane.line(second))
        case Kind.PERPENDICULAR:
            return Perpendicular(plane.line(first), plane.line(second))
    return _of_point(kind, record, plane)


def _of_point(kind: Kind, record: Record, plane: Plane) -> Constraint:
    """A constraint without a value, of a point."""
    point, entity = record.handle("ptA.v"), record.handle("entityA.v")
    match kind:
        case Kind.PTS_COINCIDENT:
            return Coincident(plane.point(point), plane.point(record.handle("ptB.v")))
        case Kind.PT_IN_PLANE:
            return PointOn(plane.point(point), plane.axis(entity))
        case Kind.PT_ON_LINE:
            return PointOn(plane.point(point), plane.line(entity))
        case Kind.PT_ON_CIRCLE:
            return PointOn(plane.point(point), plane.rim(entity))
        case Kind.AT_MIDPOINT if point:
            return Midpoint(plane.point(point), plane.line(entity))
        case Kind.LOCK_WHERE_DRAGGED:
            return Fixed(plane.point(point))
    raise NotSayable("a drawing has no such constraint")


def _level(record: Record, plane: Plane) -> ShapeRef | Pair:
    """What is horizontal or vertical: a segment, or two points."""
    if record.handle("entityA.v"):
        return plane.line(record.handle("entityA.v"))
    return _points(record, plane)


def _points(record: Record, plane: Plane) -> Pair:
    """The two points that a constraint names."""
    return Pair(plane.point(record.handle("ptA.v")), plane.point(record.handle("ptB.v")))


def _dimension(kind: Kind, record: Record, plane: Plane) -> Constraint:
    """A constraint with a length. The side of a line is as drawn: SolveSpace's sign says the
    same. A distance of nothing is said by what it means."""
    value, entity = length_um(record.number("valA")), record.handle("entityA.v")
    match kind:
        case Kind.DIAMETER:
            return Diameter(plane.rim(entity), value)
        case Kind.PT_PT_DISTANCE:
            return _between(_points(record, plane), value)
        case Kind.PROJ_PT_PT_DISTANCE:
            return _projected_distance(_points(record, plane), plane.along(entity), value)
    point = plane.point(record.handle("ptA.v"))
    if kind is Kind.PT_LINE_DISTANCE:
        line = plane.line(entity)
        return PointLineDistance(point, line, abs(value)) if value else PointOn(point, line)
    axis = plane.axis(entity)
    if not value:
        return PointOn(point, axis)
    if axis == Y_AXIS:
        return XDistance(ORIGIN, point, value, Sense.SIGNED)
    return YDistance(ORIGIN, point, value, Sense.SIGNED)


def _between(points: Pair, value: Fraction) -> Constraint:
    """The distance of two points, which is a length where they are the ends of a segment."""
    if not value:
        return Coincident(points.first, points.second)
    if points.first.shape == points.second.shape and {points.first.which, points.second.which} == {
            Which.START, Which.END} and points.first.shape.startswith("Line"):
        return Length(ShapeRef(points.first.shape), value)
    return Distance(points.first, points.second, value)


def _projected_distance(points: Pair, axis: ShapeRef, value: Fraction) -> Constraint:
    """The distance of two points along an axis, to the side that is drawn."""
    if axis == X_AXIS:
        return (XDistance(points.first, points.second, abs(value), Sense.DRAWN) if value
                else Vertical(points))
    return (YDistance(points.first, points.second, abs(value), Sense.DRAWN) if value
            else Horizontal(points))


def _symmetric(kind: Kind, record: Record, plane: Plane) -> Constraint:
    """Mirrored: to the vertical or the horizontal through the origin, a plane, or a line."""
    points, entity = _points(record, plane), record.handle("entityA.v")
    match kind:
        case Kind.SYMMETRIC_H:
            about = Y_AXIS
        case Kind.SYMMETRIC_V:
            about = X_AXIS
        case Kind.SYMMETRIC_LINE:
            about = plane.line(entity)
        case _:
            about = plane.axis(entity)
    return Symmetric(points.first, points.second, about)


def _angle(record: Record, plane: Plane, is_left: IsLeft) -> Constraint:
    """The angle of two segments' directions, the first turned round where `other` is set; it has
    no sign, and the drawing says to which side."""
    first = plane.line(record.handle("entityA.v"))
    second = plane.line(record.handle("entityB.v"))
    value = Fraction(repr(round(record.number("valA"), 9))) % 360
    if record.whole("other"):
        value = (180 - value) % 360
    size = min(value, 360 - value)
    if size in (0, 180):
        return Parallel(first, second)
    left = is_left(first, second)
    return AngleBetween(first, second, Degrees(size if left else -size), Sense.SIGNED)
