"""What a check measures on printed whole nanometres, exactly but for the last rounding: lengths in
nanometres, angles in millionths of a degree."""
from __future__ import annotations

from collections.abc import Sequence
from dataclasses import dataclass, replace
from fractions import Fraction
from math import atan2, degrees

from pertxogai.drawing import (
    AngleBetween, Diameter, Distance, Drawing, Length, ParallelDistance, Place, PointLineDistance,
    PointRef, Radius, ShapeRef, XDistance, YDistance)
from pertxogai.drawing.tolerances.check import Check
from pertxogai.exact import Number, Vector, between, cross, dot, root, square
from pertxogai.fitting.rounding import NOISE, noise_of
from pertxogai.fitting.toleranced import MILLIONTHS
from pertxogai.judging.measure import PointNm, Solution
from pertxogai.judging.measure.directions import Line
from pertxogai.judging.measure.placed import Placed

NOTHING = 20
"""In millionths: what is no more is 0 but for rounding."""
PARALLEL = 1000
"""In millionths of a degree: lines that turn by no more are parallel but for the rounding of short
ones."""
SIDED = (PointLineDistance, ParallelDistance, XDistance, YDistance)
"""What counts less than 0 on the other side."""


Way = tuple[int, int]
"""The way from a point to another, in nanometres along the x axis and the y axis."""


class NotMeasured(Exception):
    """A check can't be measured. The message is one line."""


class NoSide(NotMeasured):
    """It isn't known on which side a check counts as more than 0."""


class NoLength(NotMeasured):
    """A segment from which a check is measured has no length where it is placed, and so no
    direction."""


@dataclass(frozen=True)
class Gauge:
    """Measures one check; the distance of two segments at one end. sign: what counts as more than 0
    without a sign lies where it lies as the drawing is placed: 1 or -1. of_the_rest: whether an
    angle is what is left to 180 degrees. near: of an angle the turn as the drawing is placed, in
    millionths: what is measured is within half a turn of it, and so doesn't leap. end: of two
    segments at which end of the second it is measured, 0 or 1. noise: what of it is rounding, in
    millionths."""

    check: Check
    drawing: Drawing
    sign: int = 1
    of_the_rest: bool = False
    near: int = 0
    end: int = 0
    noise: int = NOISE

    @staticmethod
    def of(check: Check, drawing: Drawing, nominal: Solution) -> tuple[Gauge, ...]:
        """The gauges of a check of a drawing that is placed: one, or of two segments one for each
        end. Raises NoSide and NoLength."""
        ends = range(2) if isinstance(check.asked, ParallelDistance) else range(1)
        plain = [Gauge(check, drawing, end=end) for end in ends]
        there = sum(each.measured(nominal) for each in plain)
        noise = noise_of(check.asked, Placed(drawing, nominal))
        plain = [replace(each, noise=noise) for each in plain]
        if not check.is_signed and isinstance(check.asked, SIDED) and abs(there) <= NOTHING:
            return tuple(replace(each, sign=_drawn_sign(plain)) for each in plain)
        if isinstance(check.asked, AngleBetween):
            return (plain[0]._of_turn(check.asked, there),)
        sign = -1 if there < 0 and not check.is_signed else 1
        return tuple(replace(each, sign=sign) for each in plain)

    def _of_turn(self, asked: AngleBetween, there: int) -> Gauge:
        """The gauge of an angle that turns by so much as the drawing is placed. With a sign whole
        turns count so that it is nearest to the limits. Of parallel lines more than 0, and more
        than half a turn, is to the left."""
        half = 180 * MILLIONTHS
        if self.check.is_signed:
            turns = round((self._middle() - there) / (2 * half))
            return replace(self, near=there + 2 * half * turns)
        if half - abs(there) <= PARALLEL:
            there = abs(there)
        sign = -1 if there < -PARALLEL else 1
        rest = self._is_of_the_rest(asked, abs(there))
        return replace(self, sign=sign, of_the_rest=rest, near=there)

    def measured(self, solution: Solution) -> int:
        """What it measures there, in millionths. Raises MissingPlace and NoLength."""
        asked, placed = self.check.asked, Placed(self.drawing, solution)
        if isinstance(asked, AngleBetween):
            return self._angle(asked, placed)
        return round(self.sign * self._length(placed))

    def way(self, solution: Solution) -> Way | None:
        """The way that a distance of two points measures; None of what isn't one. Raises
        MissingPlace."""
        placed = Placed(self.drawing, solution)
        match self.check.asked:
            case Length(segment):
                way = placed.line(segment).way
            case Distance(first, second):
                way = between(placed.spot(first), placed.spot(second))
            case _:
                return None
        right = placed.right()
        unit = root(square(right))
        return round(dot(right, way) / unit), round(cross(right, way) / unit)

    def _length(self, placed: Placed) -> Number:
        match self.check.asked:
            case Length(segment):
                return root(square(placed.line(segment).way))
            case Distance(first, second):
                return root(square(between(placed.spot(first), placed.spot(second))))
            case PointLineDistance(point, line):
                return self._aside(placed, line, placed.spot(point))
            case ParallelDistance(first, second):
                return self._at_end(placed, first, second)
            case XDistance(first, second):
                return _along(placed, first, second, placed.right())
            case YDistance(first, second):
                right = placed.right()
                return _along(placed, first, second, (-right[1], right[0]))
            case Radius(rim):
                return placed.radius(rim)
            case Diameter(rim):
                return 2 * placed.radius(rim)
        raise AssertionError(self.check)

    def _at_end(self, placed: Placed, first: ShapeRef, second: ShapeRef) -> Number:
        """How far one end of a segment lies to the left of another."""
        if not placed.line(second).ends:
            first, second = second, first
        line = placed.line(second)
        return self._aside(placed, first, (line.start[0] + self.end * line.way[0],
                                           line.start[1] + self.end * line.way[1]))

    def _aside(self, placed: Placed, line: ShapeRef, spot: Vector) -> Number:
        """How far a place lies to the left of a line."""
        there = self._line(placed, line)
        return Fraction(cross(there.way, between(there.start, spot))) / root(square(there.way))

    def _line(self, placed: Placed, line: ShapeRef) -> Line:
        """A line that has a direction. Raises NoLength."""
        there = placed.line(line)
        if square(there.way) == 0:
            raise NoLength(f"{line.name}, from which {self.check.name} is measured, has no length")
        return there

    def _angle(self, asked: AngleBetween, placed: Placed) -> int:
        one, other = (self._line(placed, each).way for each in (asked.first, asked.second))
        turned = round(degrees(atan2(cross(one, other), dot(one, other))) * MILLIONTHS)
        half = 180 * MILLIONTHS
        turned += 2 * half * round((self.near - turned) / (2 * half))
        return half - self.sign * turned if self.of_the_rest else self.sign * turned

    def _is_of_the_rest(self, asked: AngleBetween, turned: int) -> bool:
        """Of a corner, whether one ray leaves it and the other comes to it; of lines that cross,
        whether that angle is nearer to the limits, or acute where there are none. turned: by how
        much, without a sign."""
        corner = self.drawing.meetings.corner(asked.first, asked.second)
        if corner is not None:
            return corner.first.which is not corner.second.which
        if not self.check.has_limits:
            return turned > 90 * MILLIONTHS
        middle = self._middle()
        return abs(180 * MILLIONTHS - turned - middle) < abs(turned - middle)

    def _middle(self) -> Fraction:
        """What lies between the limits of an angle, in millionths of a degree; the limit where it
        has one alone."""
        limits = self.check.limits(self.drawing.scene.values)
        wanted = [each * MILLIONTHS for each in limits if each is not None]
        return sum(wanted, Fraction(0)) / len(wanted)


def _drawn_sign(gauges: Sequence[Gauge]) -> int:
    """To which side what is 0 as it is placed lies as it is drawn; to either where the limits are
    the same to both. Raises NoSide. gauges: those of one check, without a sign."""
    check, drawing = gauges[0].check, gauges[0].drawing
    points = {ref: place_nm(drawing.drawn(ref)) for ref in drawing.points()}
    there = sum(each.measured(Solution(points)) for each in gauges)
    if abs(there) > NOTHING:
        return -1 if there < 0 else 1
    low, high = check.limits(drawing.scene.values)
    if low is not None and high is not None and low == -high:
        return 1
    raise NoSide(f"{check.name} is 0 with nominal dimensions and as drawn: draw it on the side"
                 " where it counts as more than 0")


def place_nm(place: Place) -> PointNm:
    """A place in nanometres."""
    return place.x_um * 1000, place.y_um * 1000


def _along(placed: Placed, first: PointRef, second: PointRef, way: Vector) -> Number:
    """How far the second point lies from the first along a direction."""
    apart = between(placed.spot(first), placed.spot(second))
    return Fraction(dot(apart, way)) / root(square(way))
