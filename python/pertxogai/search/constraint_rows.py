"""What a drawing asks for, as rows: its shapes' own first, then each constraint in its order."""
from __future__ import annotations

from collections.abc import Iterable, Iterator
from dataclasses import replace
from math import cos, hypot, radians, sin

from pertxogai.drawing import (
    AngleBetween, Arc, Axis, Circle, Coincident, Collinear, Concentric, Constraint, Degrees,
    Diameter, Distance, Equal, Fixed, Horizontal, Length, Midpoint, Pair, Parallel,
    ParallelDistance, Perpendicular, PointLineDistance, PointOn, PointRef, Radius, ShapeRef,
    Symmetric, Tangent, Touch, Turn, Vertical, Which, XDistance, YDistance, points_of, run_um,
    touch, turn)
from pertxogai.drawing.geometry import Origin
from pertxogai.search.combination import Combination
from pertxogai.search.row import Kind, Row
from pertxogai.search.unknowns import NM_PER_UM, By, Source, Unknowns, nm_of

Line = tuple[Combination, Combination]
"""A start, and the way along the line."""
Size = tuple[dict[int, float], float]
"""A radius, or several times one: a factor by its column, and a number of nanometres."""
NO_TURN, QUARTER = (1.0, 0.0), (0.0, 1.0)


def rows_of(unknowns: Unknowns) -> Iterator[Row]:
    """All rows of a drawing."""
    for place, shape in enumerate(unknowns.drawing.geometry, start=1):
        if isinstance(shape, Arc) and not shape.outer:
            yield from _Asked(unknowns, Source(By.SHAPE, place)).ends_of_arc(shape)
    for meeting in unknowns.apart:
        yield from _Asked(unknowns, meeting.source).meeting(meeting.pair)
    for number, constraint in enumerate(unknowns.drawing.constraints, start=1):
        yield from _Asked(unknowns, Source(By.CONSTRAINT, number)).rows(constraint)


def rows_asked(unknowns: Unknowns, constraint: Constraint) -> Iterable[Row]:
    """The rows of a constraint that would come last in the drawing."""
    number = len(unknowns.drawing.constraints) + 1
    return _Asked(unknowns, Source(By.CONSTRAINT, number)).rows(constraint)


class _Asked:
    """Writes the rows of one constraint, or of one shape."""

    def __init__(self, unknowns: Unknowns, source: Source) -> None:
        self._unknowns, self._source = unknowns, source
        self._drawing = unknowns.drawing

    # -- what may be asked for

    def rows(self, constraint: Constraint) -> Iterable[Row]:
        """The rows of a constraint; none of points that are one, which share their columns."""
        match constraint:
            case Coincident() | Concentric():
                return ()
            case Parallel() | Perpendicular() | AngleBetween() | Collinear():
                return self._of_lines(constraint)
            case Horizontal() | Vertical():
                return (self._level(constraint),)
            case Length() | Distance() | XDistance() | YDistance():
                return (self._of_length(constraint),)
            case PointLineDistance() | ParallelDistance():
                return self._off_a_line(constraint)
            case Radius(rim, value_um):
                return (self._sum([self._radius(rim)], float(value_um) * NM_PER_UM),)
            case Diameter(rim, value_um):
                return (self._sum([self._radius(rim)], float(value_um) / 2 * NM_PER_UM),)
            case Tangent():
                return (self._tangent(constraint),)
            case Fixed(what):
                return self._fixed(what)
            case PointOn(point, curve):
                return (self._on(self._unknowns.point(point), curve),)
            case Equal() | Symmetric() | Midpoint():
                return self._of_points(constraint)

    def ends_of_arc(self, arc: Arc) -> Iterator[Row]:
        """Both ends of an arc lie on its circle."""
        for which in (Which.START, Which.END):
            yield self._on(self._unknowns.point(PointRef(arc.name, which)), ShapeRef(arc.name))

    def meeting(self, pair: Pair) -> Iterable[Row]:
        """Two points are one."""
        return self._same(*map(self._unknowns.point, (pair.first, pair.second)))

    def _of_lines(
        self, constraint: Parallel | Perpendicular | AngleBetween | Collinear
    ) -> Iterable[Row]:
        ways = (self._unknowns.line(constraint.first)[1], self._unknowns.line(constraint.second)[1])
        match constraint:
            case Parallel():
                return (self._lean(ways),)
            case Perpendicular():
                return (self._lean(ways, QUARTER),)
            case AngleBetween():
                angle = cosine_and_sine(turn(self._drawing, constraint))
                return (self._lean(ways, angle, is_directed=True),)
            case Collinear(first, second):
                return self._collinear(*self._axis_first(first, second))

    def _collinear(self, line: Line, other: Line) -> Iterable[Row]:
        """Both ends of the other line lie on a line; of an end that the two share that says
        nothing, so it isn't asked, unless they share both."""
        own, points = (line[0], line[0] + line[1]), (other[0], other[0] + other[1])
        asked = [point for point in points if point not in own]
        return [self._aside(line, point) for point in asked or points]

    def _level(self, level: Horizontal | Vertical) -> Row:
        is_y = isinstance(level, Horizontal)
        if isinstance(level.of, Pair):
            return self._coordinate(self._way(level.of.first, level.of.second), is_y)
        way = self._unknowns.line(level.of)[1]
        return replace(self._coordinate(way, is_y), level=way)

    def _of_length(self, constraint: Length | Distance | XDistance | YDistance) -> Row:
        if isinstance(constraint, Length):
            way = self._unknowns.line(constraint.segment)[1]
            return self._distance(way, (), float(constraint.value_um) * NM_PER_UM)
        way = self._way(constraint.first, constraint.second)
        if isinstance(constraint, Distance):
            return self._distance(way, (), float(constraint.value_um) * NM_PER_UM)
        run_nm = float(run_um(self._drawing, constraint)) * NM_PER_UM
        return self._coordinate(way, isinstance(constraint, YDistance), run_nm, is_size=True)

    def _off_a_line(self, constraint: PointLineDistance | ParallelDistance) -> Iterable[Row]:
        value_nm = float(constraint.value_um) * NM_PER_UM
        if isinstance(constraint, PointLineDistance):
            line = self._unknowns.line(constraint.line)
            point = self._unknowns.point(constraint.point)
            yield self._aside(line, point, ({}, value_nm), is_sided=True, is_size=True)
            return
        line, (start, way) = self._axis_first(constraint.first, constraint.second)
        yield self._aside(line, start, ({}, value_nm), is_sided=True, is_size=True)
        # It is measured at both ends; that the lines are parallel is for others to say.
        yield self._measured()._aside(line, start + way, ({}, value_nm), is_sided=True)

    def _of_points(self, constraint: Equal | Symmetric | Midpoint) -> Iterable[Row]:
        match constraint:
            case Equal(first, second) if self._is_line(first):
                ways = (self._unknowns.line(first)[1], self._unknowns.line(second)[1])
                return (Row(self._source, Kind.EQUAL, ways),)
            case Equal(first, second):
                radii = [self._radius(first), self._radius(second, -1.0)]
                return (self._sum(radii, is_size=False),)
            case Symmetric(one, other, about):
                return self._mirrored(self._unknowns.point(one), self._unknowns.point(other), about)
            case Midpoint(point, segment):
                start, way = self._unknowns.line(segment)
                return self._same(start + way.times(0.5), self._unknowns.point(point))
        raise AssertionError(constraint)

    def _mirrored(
        self, one: Combination, other: Combination, about: ShapeRef | PointRef
    ) -> Iterable[Row]:
        middle = (one + other).times(0.5)
        if isinstance(about, PointRef):
            return self._same(middle, self._unknowns.point(about))
        line = self._unknowns.line(about)
        return (self._along(line, other - one), self._aside(line, middle))

    def _on(self, point: Combination, curve: ShapeRef) -> Row:
        if self._is_line(curve):
            return self._aside(self._unknowns.line(curve), point)
        return self._distance(point - self._unknowns.centre(curve), [self._radius(curve)])

    def _fixed(self, what: PointRef | ShapeRef) -> Iterator[Row]:
        shape = self._drawing.shape(what.name) if isinstance(what, ShapeRef) else None
        assert not isinstance(shape, Origin | Axis)
        if isinstance(shape, Arc):
            yield from self._fixed_arc(shape)
            return
        for ref in points_of(shape) if shape else (what,):
            assert isinstance(ref, PointRef)
            yield from self._same(self._unknowns.point(ref), self._drawn(ref))
        if isinstance(shape, Circle):
            drawn_nm = float(shape.radius_um) * NM_PER_UM
            yield self._sum([self._radius(ShapeRef(shape.name))], drawn_nm, is_size=False)

    def _fixed_arc(self, arc: Arc) -> Iterator[Row]:
        """The centre and the start lie where they are drawn, and the last radius runs as it is
        drawn. How far the end lies from the centre is measured too, and follows from the start."""
        centre, start, end = (PointRef(arc.name, each)
                              for each in (Which.CENTRE, Which.START, Which.END))
        for ref in (centre, start):
            yield from self._same(self._unknowns.point(ref), self._drawn(ref))
        line = self._drawn(centre), self._drawn(end) - self._drawn(centre)
        yield self._aside(line, self._unknowns.point(end))
        yield self._measured()._along(line, self._unknowns.point(end) - self._drawn(end))

    def _drawn(self, ref: PointRef) -> Combination:
        """Where a point is drawn."""
        return Combination({}, *nm_of(self._drawing.drawn(ref)))

    def _measured(self) -> _Asked:
        """What writes the rows that the constraint is measured by, and that say nothing more."""
        return _Asked(self._unknowns, Source(By.MEASURED, self._source.number))

    # -- touching

    def _tangent(self, tangent: Tangent) -> Row:
        at = self._drawing.meetings.touching(tangent)
        # Of a point on both, their distance would say nothing new, to the first order.
        if at is not None:
            return self._touching_at(tangent, at)
        line, rim = tangent.first, tangent.second
        if self._is_line(rim):
            line, rim = rim, line
        if self._is_line(line):
            centre = self._unknowns.centre(rim)
            return self._aside(self._unknowns.line(line), centre, self._radius(rim), is_sided=True)
        return self._rims_touching(tangent)

    def _touching_at(self, tangent: Tangent, at: Pair) -> Row:
        """The normals there run alike: those of rims are their radii, and a line is square to its
        own."""
        ways = self._normal(tangent.first, at.first), self._normal(tangent.second, at.second)
        lines = self._is_line(tangent.first) + self._is_line(tangent.second)
        return self._lean(ways, QUARTER if lines == 1 else NO_TURN)

    def _normal(self, shape: ShapeRef, end: PointRef) -> Combination:
        """The radius of a rim to a point of it; of a line the way along it."""
        if self._is_line(shape):
            return self._unknowns.line(shape)[1]
        return self._unknowns.point(end) - self._unknowns.centre(shape)

    def _rims_touching(self, tangent: Tangent) -> Row:
        first, second = tangent.first, tangent.second
        way = self._unknowns.centre(second) - self._unknowns.centre(first)
        if touch(self._drawing, tangent) is Touch.OUTSIDE:
            return self._distance(way, [self._radius(first), self._radius(second)])
        radius_um = self._drawing.drawn_radius_um
        if radius_um(first.name) < radius_um(second.name):
            first, second = second, first
        return self._distance(way, [self._radius(first), self._radius(second, -1.0)])

    # -- parts of rows

    def _is_line(self, ref: ShapeRef) -> bool:
        return not isinstance(self._drawing.shape(ref.name), (Circle, Arc))

    def _axis_first(self, first: ShapeRef, second: ShapeRef) -> tuple[Line, Line]:
        """Two lines; an axis, which has no ends to be measured, comes first."""
        if isinstance(self._drawing.shape(second.name), Axis):
            first, second = second, first
        return self._unknowns.line(first), self._unknowns.line(second)

    def _way(self, first: PointRef, second: PointRef) -> Combination:
        return self._unknowns.point(second) - self._unknowns.point(first)

    def _radius(self, ref: ShapeRef, factor: float = 1.0) -> Size:
        column = self._unknowns.column_of.get(ref.name)
        if column is not None:
            return {column: factor}, 0.0
        return {}, factor * float(self._drawing.drawn_radius_um(ref.name)) * NM_PER_UM

    # -- rows

    def _coordinate(self, of: Combination, is_y: bool, number_nm: float = 0.0,
                    is_size: bool = False) -> Row:
        """x or y of a combination is the number."""
        linear = {2 * point + is_y: factor for point, factor in of.factors.items()}
        rest_nm = number_nm - (of.y_nm if is_y else of.x_nm)
        return Row(self._source, Kind.LINEAR, (), linear, rest_nm, is_size=is_size)

    def _same(self, first: Combination, second: Combination) -> Iterable[Row]:
        return [self._coordinate(first - second, is_y) for is_y in (False, True)]

    def _sum(self, radii: Iterable[Size], number_nm: float = 0.0, is_size: bool = True) -> Row:
        """These radii together are the number."""
        linear, known_nm = _added(radii)
        return Row(self._source, Kind.LINEAR, (), linear, number_nm - known_nm, is_size=is_size)

    def _distance(self, way: Combination, radii: Iterable[Size], number_nm: float = 0.0) -> Row:
        """A way is as long as these radii together and the number."""
        linear, known_nm = _added(radii)
        return Row(self._source, Kind.DISTANCE, (way,), _negative(linear), number_nm + known_nm,
                   is_size=number_nm > 0)

    def _aside(self, line: Line, point: Combination, by: Size = ({}, 0.0), is_sided: bool = False,
               is_size: bool = False) -> Row:
        """A point lies so far off a line."""
        return Row(self._source, Kind.ASIDE, (line[1], point - line[0]), _negative(by[0]), by[1],
                   is_sided=is_sided, is_size=is_size)

    def _along(self, line: Line, way: Combination) -> Row:
        """A way has no part along a line."""
        return Row(self._source, Kind.ASIDE, (line[1], way), turn=QUARTER)

    def _lean(self, ways: tuple[Combination, Combination], by: tuple[float, float] = NO_TURN,
              is_directed: bool = False) -> Row:
        """The second way runs as the first does, once that is turned by the angle."""
        cosine, sine = by
        return Row(self._source, Kind.LEAN, ways, turn=(cosine, -sine), is_directed=is_directed)


def cosine_and_sine(by: Turn) -> tuple[float, float]:
    """Those of a turn."""
    if isinstance(by, Degrees):
        return cos(radians(float(by.value))), sin(radians(float(by.value)))
    size = hypot(by.p, by.q) * (-1 if by.backward else 1)
    return by.q / size, by.p / size


def _added(sizes: Iterable[Size]) -> Size:
    linear: dict[int, float] = {}
    known_nm = 0.0
    for factors, number_nm in sizes:
        known_nm += number_nm
        for column, factor in factors.items():
            linear[column] = linear.get(column, 0.0) + factor
    return linear, known_nm


def _negative(linear: dict[int, float]) -> dict[int, float]:
    return {column: -factor for column, factor in linear.items()}
