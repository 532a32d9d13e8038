"""What each word of a drawing asks, and what its shapes ask by themselves, as numbers that are 0
where it holds: millimetres, or the sine of an angle. With their slopes, at any place of the points.

The unknowns are the coordinates of each point that isn't shared with an earlier one, and the radii
of circles."""
from __future__ import annotations

from collections.abc import Collection, Iterator, Sequence
from dataclasses import dataclass
from fractions import Fraction
from functools import cached_property
from typing import Generic

from pertxogai.drawing import (
    ORIGIN, X_AXIS, Y_AXIS, AngleBetween, Arc, Axis, Circle, Coincident, Collinear, Concentric,
    Constraint, Diameter, Distance, Drawing, Equal, Fixed, Horizontal, Length, Midpoint, Origin,
    Pair, Parallel, ParallelDistance, Perpendicular, PointLineDistance, PointOn, PointRef, Radius,
    Segment, Shape, ShapeRef, Symmetric, Tangent, Touch, Vertical, Which, XDistance, YDistance,
    points_of, run_um, touch, turn)
from pertxogai.drawing.places import UM_PER_MM
from pertxogai.judging.jets import Jet, N, Numbers
from pertxogai.judging.trigonometry import way_of
from pertxogai.spelling.facts import Owner

JetVector = tuple[Jet[N], Jet[N]]


@dataclass(frozen=True)
class Unknowns:
    """Which places of the vector the points' coordinates have, x and then y, and the radii."""

    drawing: Drawing
    points: dict[PointRef, int]
    radii: dict[str, int]
    size: int

    @staticmethod
    def of(drawing: Drawing) -> Unknowns:
        """Those of a drawing. A point that is the origin has none."""
        earlier = {pair.first: pair.second for pair in drawing.shared()}
        points: dict[PointRef, int] = {}
        size = 0
        for ref in drawing.points():
            leader = ref
            while leader in earlier:
                leader = earlier[leader]
            if leader == ORIGIN:
                continue
            if leader not in points:
                points[leader], size = size, size + 2
            points[ref] = points[leader]
        rims = [each.name for each in drawing.geometry if isinstance(each, Circle)]
        radii = {name: size + place for place, name in enumerate(rims)}
        return Unknowns(drawing, points, radii, size + len(rims))

    def drawn(self) -> list[Fraction]:
        """The vector as it is drawn, in millimetres; points that are one where the first is."""
        found = [Fraction(0)] * self.size
        for ref, place in self.points.items():
            at = self.drawing.meetings.drawn(ref)
            found[place:place + 2] = at.x_um / UM_PER_MM, at.y_um / UM_PER_MM
        for name, place in self.radii.items():
            found[place] = self.drawing.drawn_radius_um(name) / UM_PER_MM
        return found

    @cached_property
    def _wanted(self) -> dict[AngleBetween, tuple[Fraction, Fraction]]:
        return {}

    def wanted(self, angle: AngleBetween) -> tuple[Fraction, Fraction]:
        """How far ahead and to the left of its first line the second of an angle goes, of any
        length. It's the same at each vector, and so worked out once."""
        if angle not in self._wanted:
            self._wanted[angle] = way_of(turn(self.drawing, angle))
        return self._wanted[angle]

    def pins_the_origin(self) -> bool:
        """Whether a point of a shape is the origin itself."""
        return any(ref not in self.points for ref in self.drawing.points())


@dataclass(frozen=True)
class Plane(Generic[N]):
    """A drawing at a vector, by numbers of a kind."""

    unknowns: Unknowns
    vector: list[N]
    numbers: Numbers[N]

    @property
    def drawing(self) -> Drawing:
        """The drawing."""
        return self.unknowns.drawing

    @cached_property
    def _nothing(self) -> Jet[N]:
        return self.number(Fraction(0))

    @cached_property
    def _unknowns(self) -> list[Jet[N]]:
        """Each unknown, by its place in the vector."""
        one = self.numbers.of(Fraction(1))
        return [Jet(value, {place: one}) for place, value in enumerate(self.vector)]

    def number(self, value: Fraction) -> Jet[N]:
        """A number that doesn't change."""
        return Jet(self.numbers.of(value), {})

    def mm(self, value_um: Fraction) -> Jet[N]:
        """Micrometres in millimetres."""
        return Jet(self.numbers.of(value_um) / UM_PER_MM, {})

    def unknown(self, place: int) -> Jet[N]:
        """An unknown."""
        return self._unknowns[place]

    def spot(self, ref: PointRef) -> JetVector[N]:
        """Where a point lies."""
        place = self.unknowns.points.get(ref)
        if place is None:
            return self._nothing, self._nothing
        return self.unknown(place), self.unknown(place + 1)

    def ends(self, shape: ShapeRef) -> tuple[JetVector[N], JetVector[N]]:
        """Where a segment or an arc starts and ends."""
        start, end = map(self.spot, _ends(shape))
        return start, end

    def is_line(self, shape: ShapeRef) -> bool:
        """Whether it is a segment or an axis."""
        return isinstance(self.drawing.shape(shape.name), (Segment, Axis))

    def way(self, line: ShapeRef) -> JetVector[N]:
        """The direction of a line."""
        if line in (X_AXIS, Y_AXIS):
            one = self.number(Fraction(1))
            return (one, self._nothing) if line == X_AXIS else (self._nothing, one)
        return between(*self.ends(line))

    def centre(self, rim: ShapeRef) -> JetVector[N]:
        """The centre of a rim."""
        return self.spot(PointRef(rim.name, Which.CENTRE))

    def radius(self, rim: ShapeRef) -> Jet[N]:
        """The radius of a circle, or of an arc by its start."""
        place = self.unknowns.radii.get(rim.name)
        if place is not None:
            return self.unknown(place)
        return self.size(between(self.centre(rim), self.ends(rim)[0]))

    def size(self, way: JetVector[N]) -> Jet[N]:
        """The length of a way."""
        return dot(way, way).root(self.numbers)

    def aside(self, point: JetVector[N], line: ShapeRef) -> Jet[N]:
        """How far a place is to the left of a line."""
        way = self.way(line)
        begin = self.spot(ORIGIN) if line in (X_AXIS, Y_AXIS) else self.ends(line)[0]
        return cross(way, between(begin, point)) / self.size(way)

    # -- what is asked

    def all(self) -> Iterator[tuple[Owner, Jet[N]]]:
        """What the shapes ask, and then all words, and who asks it."""
        yield from self.of_shapes()
        for number, constraint in enumerate(self.drawing.constraints, 1):
            yield from ((Owner(number), jet) for jet in self.asked(constraint))

    def of_shapes(self) -> Iterator[tuple[Owner, Jet[N]]]:
        """What the shapes ask: both ends of an arc lie on its circle, and what is given from
        outside lies where it is drawn."""
        for number, shape in enumerate(self.drawing.geometry, 1):
            owner, given = Owner(number, True), self.drawing.given()
            if isinstance(shape, Arc) and not (shape.outer and points_of(shape)[2] not in given):
                arc = ShapeRef(shape.name)
                last = between(self.centre(arc), self.ends(arc)[1])
                yield owner, self.size(last) - self.radius(arc)
            if shape.outer:
                yield from ((owner, jet) for jet in self._stays(shape, given))

    def asked(self, constraint: Constraint) -> list[Jet[N]]:
        """What a constraint asks."""
        match constraint:
            case Coincident(first, second):
                return self._one(first, second)
            case Concentric(first, second):
                return list(between(self.centre(first), self.centre(second)))
            case PointOn() | Midpoint() | Symmetric():
                return self._of_points(constraint)
            case Horizontal() | Vertical() | XDistance() | YDistance():
                return [self._off_run(constraint)]
            case Parallel() | Perpendicular() | AngleBetween() | Collinear():
                return self._of_lines(constraint)
            case Tangent():
                return self._tangent(constraint)
            case Fixed(what):
                return list(self._off_place(what))
            case _:
                return [self._size(constraint)]

    def _one(self, first: PointRef, second: PointRef) -> list[Jet[N]]:
        """That two points are one."""
        return list(between(self.spot(first), self.spot(second)))

    def _off_meeting(self, at: Pair | None) -> list[Jet[N]]:
        """That two ends are one; nothing where they are by how they are drawn."""
        if at is None:
            return []
        places = self.unknowns.points
        same = places.get(at.first) == places.get(at.second)
        return [] if same else self._one(at.first, at.second)

    def _of_points(self, constraint: PointOn | Midpoint | Symmetric) -> list[Jet[N]]:
        match constraint:
            case PointOn(point, curve) if self.is_line(curve):
                return [self.aside(self.spot(point), curve)]
            case PointOn(point, curve):
                way = between(self.centre(curve), self.spot(point))
                return [self.size(way) - self.radius(curve)]
            case Midpoint(point, segment):
                return list(between(self._middle(*self.ends(segment)), self.spot(point)))
            case Symmetric(first, second, PointRef() as about):
                return list(between(self._middle(self.spot(first), self.spot(second)),
                                    self.spot(about)))
            case Symmetric(first, second, ShapeRef() as about):
                one, other, way = self.spot(first), self.spot(second), self.way(about)
                return [self.aside(self._middle(one, other), about),
                        dot(way, between(one, other)) / self.size(way)]
        raise AssertionError(constraint)

    def _middle(self, first: JetVector[N], second: JetVector[N]) -> JetVector[N]:
        half = self.numbers.of(Fraction(1, 2))
        return (first[0] + second[0]).times(half), (first[1] + second[1]).times(half)

    def _off_run(self, constraint: Horizontal | Vertical | XDistance | YDistance) -> Jet[N]:
        """How far two points are apart along an axis, less what is asked."""
        upwards = isinstance(constraint, (Horizontal, YDistance))
        match constraint:
            case XDistance(first, second) | YDistance(first, second):
                wanted = run_um(self.drawing, constraint)
            case Horizontal(Pair(first, second)) | Vertical(Pair(first, second)):
                wanted = Fraction(0)
            case Horizontal(ShapeRef() as line) | Vertical(ShapeRef() as line):
                return self.way(line)[upwards]
        return between(self.spot(first), self.spot(second))[upwards] - self.mm(wanted)

    def _of_lines(self, constraint: Parallel | Perpendicular | AngleBetween | Collinear
                  ) -> list[Jet[N]]:
        one, other = self.way(constraint.first), self.way(constraint.second)
        match constraint:
            case Parallel():
                return [cross(one, other) / (self.size(one) * self.size(other))]
            case Perpendicular(at=pair):
                aside = dot(one, other) / (self.size(one) * self.size(other))
                return self._off_meeting(pair) + [aside]
            case AngleBetween():
                return [self._off_turn(one, constraint, other)]
            case Collinear(first, second):
                first, second = (second, first) if second in (X_AXIS, Y_AXIS) else (first, second)
                return [self.aside(self.spot(end), first) for end in self._not_on(first, second)]
        raise AssertionError(constraint)

    def _not_on(self, line: ShapeRef, other: ShapeRef) -> Sequence[PointRef]:
        """The ends of another line that are no point of a line already; both, where both are."""
        same = self.drawing.meetings.same
        own = (ORIGIN,) if line in (X_AXIS, Y_AXIS) else _ends(line)
        apart = [end for end in _ends(other) if not any(same(end, each) for each in own)]
        return apart or _ends(other)

    def _off_turn(self, first: JetVector[N], angle: AngleBetween, second: JetVector[N]) -> Jet[N]:
        """By how much the second way isn't the first, turned."""
        ahead, left = map(self.number, self.unknowns.wanted(angle))
        wanted = (first[0] * ahead - first[1] * left, first[0] * left + first[1] * ahead)
        return cross(wanted, second) / (self.size(wanted) * self.size(second))

    def _tangent(self, tangent: Tangent) -> list[Jet[N]]:
        meetings = self.drawing.meetings
        # Of a point on both, their distance would say nothing new, to the first order.
        contact = meetings.touching(tangent)
        first, second = tangent.first, tangent.second
        lines = self.is_line(first), self.is_line(second)
        if all(lines):
            return self._of_lines(Collinear(first, second))
        if contact is not None:
            one, other = (self._normal(first, contact.first), self._normal(second, contact.second))
            aside = cross(one, other) / (self.size(one) * self.size(other))
            return self._off_meeting(tangent.at) + [aside]
        if any(lines):
            line, rim = (first, second) if lines[0] else (second, first)
            return [abs(self.aside(self.centre(rim), line)) - self.radius(rim)]
        apart = self.size(between(self.centre(first), self.centre(second)))
        reach, other_reach = self.radius(first), self.radius(second)
        inside = touch(self.drawing, tangent) is Touch.INSIDE
        return [apart - (abs(reach - other_reach) if inside else reach + other_reach)]

    def _normal(self, shape: ShapeRef, end: PointRef) -> JetVector[N]:
        """What is square to a shape at a point of it."""
        if self.is_line(shape):
            x, y = self.way(shape)
            return -y, x
        return between(self.centre(shape), self.spot(end))

    def _size(self, constraint: Length | Distance | PointLineDistance | ParallelDistance | Radius
              | Diameter | Equal) -> Jet[N]:
        match constraint:
            case Length(segment, value):
                return self.size(self.way(segment)) - self.mm(value)
            case Distance(first, second, value):
                return self.size(between(self.spot(first), self.spot(second))) - self.mm(value)
            case PointLineDistance(point, line, value):
                return abs(self.aside(self.spot(point), line)) - self.mm(value)
            case ParallelDistance(one, other, value):
                one, other = (other, one) if other in (X_AXIS, Y_AXIS) else (one, other)
                return abs(self.aside(self.ends(other)[0], one)) - self.mm(value)
            case Radius(rim, value):
                return self.radius(rim) - self.mm(value)
            case Diameter(rim, value):
                return self.radius(rim) - self.mm(value / 2)
            case Equal(one, other) if self.is_line(one):
                return self.size(self.way(one)) - self.size(self.way(other))
            case Equal(one, other):
                return self.radius(one) - self.radius(other)
        raise AssertionError(constraint)

    def _off_place(self, what: PointRef | ShapeRef) -> Iterator[Jet[N]]:
        if isinstance(what, PointRef):
            yield from self._stays_at(what)
            return
        shape = self.drawing.shape(what.name)
        if not isinstance(shape, (Origin, Axis)):
            yield from self._stays(shape, points_of(shape))

    def _stays(self, shape: Shape, stay: Collection[PointRef]) -> Iterator[Jet[N]]:
        """That a shape lies where it is drawn by these of its points: of an arc the last radius has
        its direction."""
        refs = points_of(shape)
        for ref in refs[:2]:
            yield from self._stays_at(ref) if ref in stay else ()
        if isinstance(shape, Arc) and refs[2] in stay:
            arc = ShapeRef(shape.name)
            way = between(self.centre(arc), self.ends(arc)[1])
            wanted = between(*(self._drawn_way(ref) for ref in (refs[0], refs[2])))
            yield cross(wanted, way) / (self.size(wanted) * self.size(way))
        if isinstance(shape, Circle):
            yield self.radius(ShapeRef(shape.name)) - self.mm(shape.radius_um)

    def _stays_at(self, ref: PointRef) -> list[Jet[N]]:
        return list(between(self._drawn_way(ref), self.spot(ref)))

    def _drawn_way(self, ref: PointRef) -> JetVector[N]:
        place = self.drawing.drawn(ref)
        return self.mm(place.x_um), self.mm(place.y_um)


def _ends(shape: ShapeRef) -> tuple[PointRef, PointRef]:
    """The start and the end of a segment or an arc."""
    return PointRef(shape.name, Which.START), PointRef(shape.name, Which.END)


def between(first: JetVector[N], second: JetVector[N]) -> JetVector[N]:
    """The way from one place to another."""
    return second[0] - first[0], second[1] - first[1]


def cross(first: JetVector[N], second: JetVector[N]) -> Jet[N]:
    """Above 0 where the second lies to the left of the first."""
    return first[0] * second[1] - first[1] * second[0]


def dot(first: JetVector[N], second: JetVector[N]) -> Jet[N]:
    """Above 0 where the second lies ahead along the first."""
    return first[0] * second[0] + first[1] * second[1]
