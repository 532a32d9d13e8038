"""The constraints of a FreeCAD sketch, in a drawing's words.

Each entry of the file names up to three shapes by number, and of each a position: none (the
shape), its start, its end, or its middle (the centre). What FreeCAD means by each form is as its
`Sketch.cpp` builds it for its solver.
"""

from __future__ import annotations

from dataclasses import dataclass
from enum import IntEnum
from fractions import Fraction

from pertxogai.drawing import (
    ORIGIN, X_AXIS, Y_AXIS, AngleBetween, Arc, Circle, Coincident, Collinear, Concentric,
    Constraint, Degrees, Diameter, Distance, Equal, Fixed, Horizontal, Length, Pair, Parallel,
    Perpendicular, Point, PointLineDistance, PointOn, PointRef, Radius, Segment, Sense, ShapeRef,
    Symmetric, Tangent, Vertical, Which, XDistance, YDistance)
from pertxogai.files.contents import NotSayable
from pertxogai.files.freecad.lying import Lying
from pertxogai.files.freecad.markup import Node
from pertxogai.files.freecad.numbers import degrees, length_um, number, whole
from pertxogai.files.freecad.shapes import Numbered


class Kind(IntEnum):
    """FreeCAD's numbers of its kinds of constraint."""

    NONE = 0
    COINCIDENT = 1
    HORIZONTAL = 2
    VERTICAL = 3
    PARALLEL = 4
    TANGENT = 5
    DISTANCE = 6
    DISTANCE_X = 7
    DISTANCE_Y = 8
    ANGLE = 9
    PERPENDICULAR = 10
    RADIUS = 11
    EQUAL = 12
    POINT_ON_OBJECT = 13
    SYMMETRIC = 14
    INTERNAL_ALIGNMENT = 15
    SNELLS_LAW = 16
    BLOCK = 17
    DIAMETER = 18
    WEIGHT = 19


class Position(IntEnum):
    """FreeCAD's numbers of the places of a shape."""

    NONE = 0
    START = 1
    END = 2
    MIDDLE = 3


_WORDS = {
    Kind.INTERNAL_ALIGNMENT: "the alignment of a curve's own parts",
    Kind.SNELLS_LAW: "Snell's law",
    Kind.WEIGHT: "a spline's weight",
}
_NO_SHAPE = -2000
X_NUMBER, Y_NUMBER = -1, -2


@dataclass(frozen=True)
class End:
    """One of the three places that an entry names: a shape's number, and a position."""

    shape: int
    position: Position

    @property
    def there(self) -> bool:
        """Whether the entry names a shape here."""
        return self.shape != _NO_SHAPE

    @property
    def is_point(self) -> bool:
        """Whether the entry names a point here, and no whole shape."""
        return self.there and self.position is not Position.NONE


@dataclass(frozen=True)
class Entry:
    """An entry of the list of constraints: its kind, its places, its value in millimetres or
    radians, and its name, which is FreeCAD's own where its designer gave none."""

    kind: Kind
    first: End
    second: End
    third: End
    value: float
    name: str


def read_entry(node: Node, count: int) -> Entry:
    """The entry of a node that is the `count`-th of its list, from 1. Raises Unsaid."""
    kind = whole(node, "Type", "0")
    if kind not in list(Kind):
        raise NotSayable(f"FreeCAD's kind {kind} isn't known here")
    first, second, third = (_end(node, word) for word in ("First", "Second", "Third"))
    return Entry(Kind(kind), first, second, third, number(node, "Value", "0"),
                 name_of(node, count))


def part_of_a_curve(node: Node) -> int | None:
    """The number of the shape that an entry makes a part of a curve, as the axis of an ellipse;
    None where it is no such entry."""
    try:
        if whole(node, "Type", "0") == Kind.INTERNAL_ALIGNMENT:
            return whole(node, "First", str(_NO_SHAPE))
    except NotSayable:
        pass
    return None


def name_of(node: Node, count: int) -> str:
    """What FreeCAD shows as the name of a constraint."""
    return node.get("Name", "") or f"Constraint{count}"


def _end(node: Node, word: str) -> End:
    """One place of an entry."""
    position = whole(node, word + "Pos", "0")
    if position not in list(Position):
        raise NotSayable(f"FreeCAD's position {position} isn't known here")
    return End(whole(node, word, str(_NO_SHAPE)), Position(position))


class Shapes:
    """The shapes of a sketch by FreeCAD's numbers, and which points its constraints put on them.
    Every method raises Unsaid where the place isn't what is asked for."""

    def __init__(self, shapes: list[Numbered], lying: Lying = Lying()) -> None:
        self._shapes = {one.number: one for one in shapes}
        self._lying = lying

    def point(self, end: End) -> PointRef:
        """The point of a place."""
        if end.shape in (X_NUMBER, Y_NUMBER) and end.position is Position.START:
            return ORIGIN
        shape = self._shape(end)
        which = _WHICH.get((type(shape), end.position))
        if which is None:
            raise NotSayable(f"{shape.name} has no such point here")
        return PointRef(shape.name, which)

    def line(self, end: End) -> ShapeRef:
        """The segment or axis of a place."""
        if end.shape in (X_NUMBER, Y_NUMBER):
            return X_AXIS if end.shape == X_NUMBER else Y_AXIS
        shape = self._shape(end)
        if not isinstance(shape, Segment):
            raise NotSayable(f"{shape.name} is no segment")
        return ShapeRef(shape.name)

    def rim(self, end: End) -> ShapeRef:
        """The circle or arc of a place."""
        shape = None if end.shape in (X_NUMBER, Y_NUMBER) else self._shape(end)
        if not isinstance(shape, (Circle, Arc)):
            raise NotSayable(f"{shape.name if shape else 'an axis'} is no circle or arc")
        return ShapeRef(shape.name)

    def curve(self, end: End) -> ShapeRef:
        """The segment, axis, circle or arc of a place."""
        return self.rim(end) if self.is_rim(end) else self.line(end)

    def any(self, end: End) -> PointRef | ShapeRef:
        """The shape of a place, a point as its one point."""
        shape = self._shape(end)
        return PointRef(shape.name) if isinstance(shape, Point) else ShapeRef(shape.name)

    def check_on(self, end: End, *curves: ShapeRef) -> None:
        """Raises Unsaid where the constraints don't put the point of a place on all these."""
        point = self.point(end)
        if not all(self._lying.is_on(point, curve) for curve in curves):
            raise NotSayable("no other constraint puts its point on both of its shapes")

    def is_rim(self, end: End) -> bool:
        """Whether a place names a circle or an arc."""
        found = self._shapes.get(end.shape)
        return found is not None and isinstance(found.shape, (Circle, Arc))

    def _shape(self, end: End) -> Point | Segment | Circle | Arc:
        found = self._shapes.get(end.shape)
        if found is None:
            raise NotSayable("it refers to a shape that isn't in the file")
        if found.shape is None:
            raise NotSayable(f"it refers to {found.name}, which is left out")
        return found.shape


_WHICH: dict[tuple[type, Position], Which] = {
    (Point, Position.START): Which.AT,
    (Point, Position.END): Which.AT,
    (Point, Position.MIDDLE): Which.AT,
    (Segment, Position.START): Which.START,
    (Segment, Position.END): Which.END,
    (Circle, Position.MIDDLE): Which.CENTRE,
    (Arc, Position.START): Which.START,
    (Arc, Position.END): Which.END,
    (Arc, Position.MIDDLE): Which.CENTRE,
}


def say(entry: Entry, shapes: Shapes) -> list[Constraint]:
    """What a drawing says for an entry, all under its name. Raises Unsaid."""
    if entry.kind in _SIMPLE:
        return [_SIMPLE[entry.kind](entry, shapes)]
    if entry.kind in _SEVERAL:
        return _SEVERAL[entry.kind](entry, shapes)
    raise NotSayable(f"a drawing has no constraint for {_WORDS.get(entry.kind, 'it')}")


def _coincident(entry: Entry, shapes: Shapes) -> Constraint:
    if not entry.first.is_point and not entry.second.is_point:
        return Concentric(shapes.rim(entry.first), shapes.rim(entry.second), entry.name)
    return Coincident(shapes.point(entry.first), shapes.point(entry.second), entry.name)


def _level(entry: Entry, shapes: Shapes) -> ShapeRef | Pair:
    """What is horizontal or vertical: a line, or two points."""
    if entry.second.there:
        return Pair(shapes.point(entry.first), shapes.point(entry.second))
    return shapes.line(entry.first)


def _horizontal(entry: Entry, shapes: Shapes) -> Constraint:
    return Horizontal(_level(entry, shapes), entry.name)


def _vertical(entry: Entry, shapes: Shapes) -> Constraint:
    return Vertical(_level(entry, shapes), entry.name)


def _parallel(entry: Entry, shapes: Shapes) -> Constraint:
    return Parallel(shapes.line(entry.first), shapes.line(entry.second), entry.name)


def _radius(entry: Entry, shapes: Shapes) -> Constraint:
    return Radius(shapes.rim(entry.first), length_um(entry.value), entry.name)


def _diameter(entry: Entry, shapes: Shapes) -> Constraint:
    return Diameter(shapes.rim(entry.first), length_um(entry.value), entry.name)


def _equal(entry: Entry, shapes: Shapes) -> Constraint:
    if shapes.is_rim(entry.first):
        return Equal(shapes.rim(entry.first), shapes.rim(entry.second), entry.name)
    return Equal(shapes.line(entry.first), shapes.line(entry.second), entry.name)


def _point_on_object(entry: Entry, shapes: Shapes) -> Constraint:
    return PointOn(shapes.point(entry.first), shapes.curve(entry.second), entry.name)


def _symmetric(entry: Entry, shapes: Shapes) -> Constraint:
    third = entry.third
    about: PointRef | ShapeRef = (shapes.point(third) if third.is_point else shapes.line(third))
    return Symmetric(shapes.point(entry.first), shapes.point(entry.second), about, entry.name)


def _block(entry: Entry, shapes: Shapes) -> Constraint:
    return Fixed(shapes.any(entry.first), entry.name)


def _distance(entry: Entry, shapes: Shapes) -> Constraint:
    """Between points, from a point to a line, or the length of a segment. A distance of nothing
    is said by what it means."""
    value, name = length_um(entry.value), entry.name
    if not entry.second.there:
        return Length(shapes.line(entry.first), value, name)
    if not entry.first.is_point:
        raise NotSayable("a drawing has no constraint for the gap of two shapes")
    point = shapes.point(entry.first)
    if entry.second.is_point:
        other = shapes.point(entry.second)
        return Distance(point, other, value, name) if value else Coincident(point, other, name)
    line = shapes.line(entry.second)
    return PointLineDistance(point, line, value, name) if value else PointOn(point, line, name)


def _span(entry: Entry, shapes: Shapes) -> Pair:
    """From where to where an x or y distance is told: from point to point, from the start of a
    segment to its end, or from the origin to a point."""
    if entry.second.is_point:
        return Pair(shapes.point(entry.first), shapes.point(entry.second))
    if entry.first.is_point:
        return Pair(ORIGIN, shapes.point(entry.first))
    line = shapes.line(entry.first).name
    return Pair(PointRef(line, Which.START), PointRef(line, Which.END))


def _distance_x(entry: Entry, shapes: Shapes) -> Constraint:
    span, value = _span(entry, shapes), length_um(entry.value)
    if not value:
        return Vertical(span, entry.name)
    return XDistance(span.first, span.second, value, Sense.SIGNED, entry.name)


def _distance_y(entry: Entry, shapes: Shapes) -> Constraint:
    span, value = _span(entry, shapes), length_um(entry.value)
    if not value:
        return Horizontal(span, entry.name)
    return YDistance(span.first, span.second, value, Sense.SIGNED, entry.name)


def _angle(entry: Entry, shapes: Shapes) -> Constraint:
    """From one line to the other, each away from the end that is named, from its start where
    none is; or of one line to the x axis."""
    if not entry.second.there:
        if shapes.is_rim(entry.first):
            raise NotSayable("a drawing has no constraint for the opening of an arc")
        return _turn(X_AXIS, shapes.line(entry.first), degrees(entry.value), entry.name)
    if shapes.is_rim(entry.first) or shapes.is_rim(entry.second):
        raise NotSayable("a drawing has no angle of an arc or a circle")
    ends = (entry.first.position, entry.second.position)
    back = not entry.third.there and (ends[0] is Position.END) != (ends[1] is Position.END)
    value = degrees(entry.value) + (180 if back else 0)
    return _turn(shapes.line(entry.first), shapes.line(entry.second), value, entry.name)


def _turn(first: ShapeRef, second: ShapeRef, value: Fraction, name: str) -> Constraint:
    """An angle by its turn in degrees, brought above -180 and to at most 180."""
    within = 180 - (180 - value) % 360
    if within in (0, 180):
        return Parallel(first, second, name)
    return AngleBetween(first, second, Degrees(within), Sense.SIGNED, name)


def _tangent(entry: Entry, shapes: Shapes) -> list[Constraint]:
    """Along each other anywhere, where an end of the first lies on the second, where two ends
    meet, or through a third point. For that FreeCAD asks for the directions alone: of two lines
    that they are parallel, and of rims that they touch only if the point is put on both."""
    first, second = shapes.curve(entry.first), shapes.curve(entry.second)
    rims, name = shapes.is_rim(entry.first) or shapes.is_rim(entry.second), entry.name
    touch: Constraint = Tangent(first, second, None, name) if rims else Collinear(first, second,
                                                                                  name)
    if entry.third.there:
        if rims:
            shapes.check_on(entry.third, first, second)
            return [touch]
        return [Parallel(first, second, name)]
    if not entry.first.is_point:
        return [touch]
    point = shapes.point(entry.first)
    if not entry.second.is_point:
        return [PointOn(point, second, name), touch] if rims else [touch]
    at = Pair(point, shapes.point(entry.second))
    if rims:
        return [Tangent(first, second, at, name)]
    return [Coincident(at.first, at.second, name), touch]


def _perpendicular(entry: Entry, shapes: Shapes) -> list[Constraint]:
    """At a right angle, in the same four forms. A line across a rim goes through its centre."""
    first, second, name = shapes.curve(entry.first), shapes.curve(entry.second), entry.name
    across = _across(entry, shapes, first, second)
    if entry.third.there and not isinstance(across, Perpendicular):
        shapes.check_on(entry.third, first, second)
    if entry.third.there or not entry.first.is_point:
        return [across]
    point = shapes.point(entry.first)
    if not entry.second.is_point:
        return [PointOn(point, second, name), across]
    at = Pair(point, shapes.point(entry.second))
    if isinstance(across, Perpendicular):
        return [Perpendicular(first, second, at, name)]
    return [Coincident(at.first, at.second, name), across]


def _across(entry: Entry, shapes: Shapes, first: ShapeRef, second: ShapeRef) -> Constraint:
    """That two shapes are at a right angle where they meet."""
    match shapes.is_rim(entry.first), shapes.is_rim(entry.second):
        case True, True:
            raise NotSayable("a drawing has no constraint for rims that cross at a right angle")
        case True, False:
            return PointOn(PointRef(first.name, Which.CENTRE), second, entry.name)
        case False, True:
            return PointOn(PointRef(second.name, Which.CENTRE), first, entry.name)
    return Perpendicular(first, second, None, entry.name)


_SIMPLE = {
    Kind.COINCIDENT: _coincident,
    Kind.HORIZONTAL: _horizontal,
    Kind.VERTICAL: _vertical,
    Kind.PARALLEL: _parallel,
    Kind.DISTANCE: _distance,
    Kind.DISTANCE_X: _distance_x,
    Kind.DISTANCE_Y: _distance_y,
    Kind.ANGLE: _angle,
    Kind.RADIUS: _radius,
    Kind.EQUAL: _equal,
    Kind.POINT_ON_OBJECT: _point_on_object,
    Kind.SYMMETRIC: _symmetric,
    Kind.BLOCK: _block,
    Kind.DIAMETER: _diameter,
}

_SEVERAL = {
    Kind.TANGENT: _tangent,
    Kind.PERPENDICULAR: _perpendicular,
}
