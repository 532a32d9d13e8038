"""What a check of tolerances measures, by formulas of the tests' own: in floats, of points that lie
where they were printed. Lengths in nanometres, angles in millionths of a degree, with a sign."""
from __future__ import annotations

from math import atan2, degrees, hypot

from pertxogai.drawing import (
    ORIGIN, X_AXIS, AngleBetween, Axis, Distance, Drawing, Length, PointLineDistance, PointRef,
    ShapeRef, Which, XDistance, YDistance)
from pertxogai.drawing.tolerances.check import Check
from pertxogai.judging.measure import Solution

Spot = tuple[float, float]


class Plain:
    """Measures on the places of one solution, told from the origin along the axes."""

    def __init__(self, drawing: Drawing, solution: Solution) -> None:
        self._drawing, self._solution = drawing, solution

    def measured(self, check: Check) -> float:
        """What a check measures: a point's distance from a line is above 0 to its left."""
        match check.asked:
            case Length(segment):
                start, end = self._ends(segment)
                return hypot(end[0] - start[0], end[1] - start[1])
            case Distance(first, second):
                one, other = self._spot(first), self._spot(second)
                return hypot(other[0] - one[0], other[1] - one[1])
            case XDistance(first, second):
                return self._spot(second)[0] - self._spot(first)[0]
            case YDistance(first, second):
                return self._spot(second)[1] - self._spot(first)[1]
            case PointLineDistance(point, line):
                (x, y), (to_x, to_y) = self._ends(line)
                px, py = self._spot(point)
                run, rise = to_x - x, to_y - y
                return (run * (py - y) - rise * (px - x)) / hypot(run, rise)
            case AngleBetween(first, second):
                turn = self._direction(second) - self._direction(first)
                return ((turn + 180) % 360 - 180) * 1e6
        raise NotImplementedError(check)

    def _direction(self, line: ShapeRef) -> float:
        """Which way a line points, in degrees from the x axis to the left."""
        (x, y), (to_x, to_y) = self._ends(line)
        return degrees(atan2(to_y - y, to_x - x))

    def _ends(self, line: ShapeRef) -> tuple[Spot, Spot]:
        if isinstance(self._drawing.shape(line.name), Axis):
            return (0.0, 0.0), (1.0, 0.0) if line == X_AXIS else (0.0, 1.0)
        start, end = (self._spot(PointRef(line.name, which)) for which in (Which.START, Which.END))
        return start, end

    def _spot(self, ref: PointRef) -> Spot:
        """Where a point lies from the origin, turned to the x axis."""
        if ref == ORIGIN:
            return 0.0, 0.0
        frame = self._solution.frame
        x, y = (float(there - origin)
                for there, origin in zip(self._solution.spot(ref), frame.origin))
        right, up = (float(each) for each in frame.right)
        size = hypot(right, up)
        return (x * right + y * up) / size, (y * right - x * up) / size
