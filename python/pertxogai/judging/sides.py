"""What constraints put on a side of a segment or of a point: as it is drawn, and as it is
placed."""
from __future__ import annotations

from collections.abc import Callable, Iterator
from typing import NamedTuple

from pertxogai.drawing import (
    Arc, Circle, Drawing, ParallelDistance, PointLineDistance, PointOn, PointRef, Segment, Sense,
    ShapeRef, Tangent, Which, XDistance, YDistance)
from pertxogai.exact import Number, Vector, between, cross, square
from pertxogai.judging.edges import STRAIGHT_NM, Edges, ends_of


class Sided(NamedTuple):
    """What a constraint puts on a side of a segment, by its name and its points: a point, the
    centre of a circle or an arc, or both ends of a parallel segment. side: where all of these are
    drawn, 1 to the left, -1 to the right."""

    name: str
    points: tuple[PointRef, ...]
    line: Segment
    side: int

    def is_across(self, edges: Edges) -> bool:
        """Whether all of it is placed on the other side than it is drawn. Raises MissingPlace."""
        return _side(self.points, self.line, edges.spot) == -self.side


class Beside(NamedTuple):
    """What a distance along an axis, without a sign, puts on a side of a point, by the names of
    both and the points. axis: 0 along x, 1 along y. side: where it is drawn, 1 or -1."""

    name: str
    of: str
    point: PointRef
    first: PointRef
    axis: int
    side: int

    def edge(self) -> str | None:
        """The shape of which these are two points; None where they are of two."""
        return self.point.shape if self.point.shape == self.first.shape else None

    def is_across(self, edges: Edges) -> bool:
        """Whether it is placed on the other side than it is drawn. Raises MissingPlace."""
        return _sign(_way(self.first, self.point, edges.spot)[self.axis]) == -self.side


def beside(drawing: Drawing) -> Iterator[Beside]:
    """What distances along the axes put on a side of a point. Points that are one count as drawn
    where the first of them is; so where these are drawn apart, a thing may come to lie on the other
    side of one than it is drawn."""
    for each in drawing.constraints:
        if isinstance(each, XDistance | YDistance) and each.sense is Sense.DRAWN:
            axis = 1 if isinstance(each, YDistance) else 0
            way = _way(each.first, each.second, drawing.scene.drawn_nm)
            if side := _sign(way[axis]):
                names = _called(drawing, each.second), _called(drawing, each.first)
                yield Beside(*names, each.second, each.first, axis, side)


def sided(drawing: Drawing) -> Iterator[Sided]:
    """What constraints put on a side of a segment: by a distance, or by a touch that isn't told to
    be in a point. What is drawn on the line, or whose points are one with others that are drawn
    elsewhere, so that it isn't clear on which side, isn't among these."""
    for name, points, line in dict.fromkeys(_told(drawing)):
        segment = drawing.shape(line)
        if isinstance(segment, Segment):
            side = _side(points, segment, drawing.scene.drawn_nm)
            if side and side == _side(points, segment, lambda ref: _drawn_as_first(drawing, ref)):
                yield Sided(name, points, segment, side)


def _told(drawing: Drawing) -> Iterator[tuple[str, tuple[PointRef, ...], str]]:
    """The name and the points of each, and the line."""
    for each in drawing.constraints:
        match each:
            case PointLineDistance(point, line):
                yield _called(drawing, point), (point,), line.name
            case ParallelDistance(line, other):
                shape = drawing.shape(other.name)
                if isinstance(shape, Segment):
                    yield other.name, ends_of(shape), line.name
            case Tangent(first, second, at=None):
                for line, rim in ((first, second), (second, first)):
                    if (isinstance(drawing.shape(rim.name), Circle | Arc)
                            and not _touch_in_a_point(drawing, line, rim)):
                        yield rim.name, (PointRef(rim.name, Which.CENTRE),), line.name


def _called(drawing: Drawing, point: PointRef) -> str:
    is_circle = isinstance(drawing.shape(point.shape), Circle)
    return point.shape if is_circle else str(point)


def _touch_in_a_point(drawing: Drawing, line: ShapeRef, rim: ShapeRef) -> bool:
    """Whether a point is told to lie on both."""
    return not _points_on(drawing, line).isdisjoint(_points_on(drawing, rim))


def _points_on(drawing: Drawing, curve: ShapeRef) -> set[PointRef]:
    shape, leader = drawing.shape(curve.name), drawing.meetings.leader
    found = {leader(each.point) for each in drawing.constraints
             if isinstance(each, PointOn) and each.curve == curve}
    return found.union(map(leader, ends_of(shape))) if isinstance(shape, Segment | Arc) else found


def _drawn_as_first(drawing: Drawing, ref: PointRef) -> Vector:
    """Where the first is drawn of the points that are one with a point, in nm."""
    return drawing.scene.drawn_nm(drawing.meetings.leader(ref))


def _side(points: tuple[PointRef, ...], line: Segment, spot: Callable[[PointRef], Vector]) -> int:
    """On which side of a segment some points lie; 0 where they lie on both, or one on the line."""
    start, end = map(spot, ends_of(line))
    way = between(start, end)
    sides = {_side_of(way, between(start, spot(each))) for each in points}
    return sides.pop() if len(sides) == 1 else 0


def _side_of(way: Vector, aside: Vector) -> int:
    turn = cross(way, aside)
    if turn * turn <= STRAIGHT_NM ** 2 * square(way):
        return 0
    return 1 if turn > 0 else -1


def _way(first: PointRef, second: PointRef, spot: Callable[[PointRef], Vector]) -> Vector:
    return between(spot(first), spot(second))


def _sign(run_nm: Number) -> int:
    """Which way a run along an axis goes; 0 where that is within a micrometre."""
    if -STRAIGHT_NM <= run_nm <= STRAIGHT_NM:
        return 0
    return 1 if run_nm > 0 else -1
