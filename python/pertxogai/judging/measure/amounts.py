"""How far one constraint is off, in nanometres and, where it asks for a direction, in ppb."""

from __future__ import annotations

from fractions import Fraction

from pertxogai.drawing import (
    AngleBetween, Coincident, Collinear, Concentric, Constraint, Diameter, Distance, Equal, Fixed,
    Horizontal, Length, Midpoint, Pair, Parallel, ParallelDistance, Perpendicular,
    PointLineDistance, PointOn, PointRef, Radius, ShapeRef, Symmetric, Tangent, Touch, Vertical,
    Which, XDistance, YDistance, points_of, run_um, touch, turn)
from pertxogai.drawing.geometry import Axis, Origin
from pertxogai.exact import (
    Number, Vector, apart, between, cross, dot, length, off, quotient, roots_apart, square,
    whole_up)
from pertxogai.judging.measure.directions import Bend, Line, bend, bend_of_lines
from pertxogai.judging.measure.placed import Placed, nm

Amounts = tuple[int, int | None]
"""Nanometres, and ppb where a direction is measured."""


def amounts(placed: Placed, constraint: Constraint) -> Amounts:
    """How far a constraint is off. Raises MissingPlace."""
    match constraint:
        case Parallel() | Perpendicular() | Collinear() | AngleBetween():
            return _of_lines(placed, constraint)
        case Horizontal() | Vertical():
            return _level(placed, constraint)
        case Tangent():
            return _tangent(placed, constraint)
        case Length() | Distance() | PointLineDistance() | ParallelDistance():
            return _distance(placed, constraint), None
        case XDistance() | YDistance():
            return _off_along_axis(placed, constraint), None
        case Radius() | Diameter():
            return _size(placed, constraint), None
        case _:
            return _of_points(placed, constraint), None


def _of_points(placed: Placed, constraint: Coincident | PointOn | Midpoint | Symmetric | Equal
               | Concentric | Fixed) -> int:
    match constraint:
        case Coincident(first, second):
            return placed.apart(first, second)
        case PointOn(point, curve) if placed.is_line(curve):
            return placed.off_line(placed.spot(point), placed.line(curve), 0)
        case PointOn(point, curve):
            return placed.off_rim(placed.spot(point), curve)
        case Midpoint(point, segment):
            start, end = (PointRef(segment.name, each) for each in (Which.START, Which.END))
            return apart(_middle(placed.spot(start), placed.spot(end)), placed.spot(point))
        case Symmetric(first, second, PointRef() as about):
            return apart(_middle(placed.spot(first), placed.spot(second)), placed.spot(about))
        case Symmetric(first, second, ShapeRef() as about):
            return _off_mirror_image(placed.spot(first), placed.spot(second), placed.line(about))
        case Equal():
            return _equal(placed, constraint)
        case Concentric(one, other):
            return apart(placed.centre(one), placed.centre(other))
        case Fixed(what):
            return _off_place(placed, what)
    raise AssertionError(constraint)


def _middle(first: Vector, second: Vector) -> Vector:
    return Fraction(first[0] + second[0]) / 2, Fraction(first[1] + second[1]) / 2


def _off_mirror_image(first: Vector, second: Vector, line: Line) -> int:
    """How far the second place is from the mirror image of the first in a line; in a line
    without a direction, from the first itself."""
    if square(line.way) == 0:
        return apart(first, second)
    aside = Fraction(2 * cross(line.way, between(line.start, first))) / square(line.way)
    return apart((first[0] + aside * line.way[1], first[1] - aside * line.way[0]), second)


def _equal(placed: Placed, equal: Equal) -> int:
    if placed.is_line(equal.first):
        return roots_apart(square(placed.line(equal.first).way),
                           square(placed.line(equal.second).way))
    return whole_up(placed.radius(equal.first) - placed.radius(equal.second))


def _off_place(placed: Placed, what: PointRef | ShapeRef) -> int:
    if isinstance(what, PointRef):
        return placed.off_drawn(what)
    shape = placed.drawing.shape(what.name)
    assert not isinstance(shape, Origin | Axis)
    return max(whole_up(placed.off_drawn_radius(what.name)),
               *(placed.off_drawn(each) for each in points_of(shape)))


def _size(placed: Placed, constraint: Radius | Diameter) -> int:
    times = 1 if isinstance(constraint, Radius) else 2
    return whole_up(times * placed.radius(constraint.rim) - nm(constraint.value_um))


def _distance(placed: Placed,
              constraint: Length | Distance | PointLineDistance | ParallelDistance) -> int:
    wanted = nm(constraint.value_um)
    match constraint:
        case Length(segment):
            return off(length(placed.line(segment).way), wanted)
        case Distance(first, second):
            return off(length(between(placed.spot(first), placed.spot(second))), wanted)
        case PointLineDistance(point, line):
            return placed.off_line(placed.spot(point), placed.line(line), wanted)
        case ParallelDistance(one, other):
            return _parallel_distance(placed, placed.line(one), placed.line(other), wanted)


def _parallel_distance(placed: Placed, first: Line, second: Line, wanted: Number) -> int:
    """How far both ends of the second are off the distance, on the side of its start; of an
    axis, the ends of the first."""
    if not second.ends:
        first, second = second, first
    far = (second.start[0] + second.way[0], second.start[1] + second.way[1])
    start = cross(first.way, between(first.start, second.start))
    end = cross(first.way, between(first.start, far))
    if square(first.way) == 0:
        return placed.off_line(second.start, first, wanted)
    size = square(first.way)
    side = -1 if start < 0 else 1
    return max(off(quotient(side * start, size), wanted), off(quotient(side * end, size), wanted))


def _off_along_axis(placed: Placed, run: XDistance | YDistance) -> int:
    way, right = between(placed.spot(run.first), placed.spot(run.second)), placed.right()
    along = dot(right, way) if isinstance(run, XDistance) else cross(right, way)
    wanted = nm(run_um(placed.drawing, run))
    if square(right) == 1:
        return whole_up(along - wanted)
    return off(quotient(along, square(right)), wanted)


def _level(placed: Placed, level: Horizontal | Vertical) -> Amounts:
    if isinstance(level.of, Pair):
        way = between(placed.spot(level.of.first), placed.spot(level.of.second))
        across = placed.x_and_y(way)[1 if isinstance(level, Horizontal) else 0]
        return off(across, 0), None
    axis = Line((0, 0), placed.right(), False)
    line = placed.line(level.of)
    return _both(bend_of_lines(axis, line, isinstance(level, Vertical)), axis, line)


def _both(off_by: Bend, first: Line, second: Line) -> Amounts:
    return off_by.nm(first, second), off_by.ppb()


def _of_lines(placed: Placed,
              constraint: Parallel | Perpendicular | Collinear | AngleBetween) -> Amounts:
    first, second = placed.line(constraint.first), placed.line(constraint.second)
    match constraint:
        case Parallel():
            return _both(bend_of_lines(first, second, False), first, second)
        case AngleBetween():
            return _both(bend(first, second, turn(placed.drawing, constraint)), first, second)
        case Perpendicular(at=at):
            nanometres, ppb = _both(bend_of_lines(first, second, True), first, second)
            return max(nanometres, _off_meeting(placed, at)), ppb
        case Collinear():
            return _collinear(placed, first, second)


def _off_meeting(placed: Placed, at: Pair | None) -> int:
    return 0 if at is None else placed.apart(at.first, at.second)


def _collinear(placed: Placed, first: Line, second: Line) -> Amounts:
    """Both ends of the second lie on the first; of an axis, the ends of the first on it."""
    if not second.ends:
        first, second = second, first
    far = (second.start[0] + second.way[0], second.start[1] + second.way[1])
    nanometres = max(placed.off_line(each, first, 0) for each in (second.start, far))
    return nanometres, bend_of_lines(first, second, False).ppb()


def _tangent(placed: Placed, tangent: Tangent) -> Amounts:
    at = placed.drawing.meetings.contact(tangent)
    if at is not None:
        return _touching_there(placed, tangent, at)
    first, second = tangent.first, tangent.second
    if placed.is_line(second):
        first, second = second, first
    if placed.is_line(first):
        line = placed.line(first)
        return placed.off_line(placed.centre(second), line, placed.radius(second)), None
    radii = placed.radius(first), placed.radius(second)
    inside = touch(placed.drawing, tangent) is Touch.INSIDE
    wanted = max(radii) - min(radii) if inside else radii[0] + radii[1]
    return off(length(between(placed.centre(first), placed.centre(second))), wanted), None


def _touching_there(placed: Placed, tangent: Tangent, at: Pair) -> Amounts:
    """The ends are one point, and the normals there have one direction: the radius of a rim,
    and what is square to a line."""
    first = _normal(placed, tangent.first, at.first)
    second = _normal(placed, tangent.second, at.second)
    nanometres, ppb = _both(bend_of_lines(first, second, False), first, second)
    return max(nanometres, _off_meeting(placed, at)), ppb


def _normal(placed: Placed, shape: ShapeRef, end: PointRef) -> Line:
    if placed.is_line(shape):
        line = placed.line(shape)
        return Line(placed.spot(end), (-line.way[1], line.way[0]), True)
    centre = placed.centre(shape)
    return Line(centre, between(centre, placed.spot(end)), True)
