"""The placed points, lines and rims of a drawing, in nanometres as printed."""

from __future__ import annotations

from dataclasses import dataclass, field
from fractions import Fraction

from pertxogai.drawing import ORIGIN, Axis, Circle, Drawing, PointRef, Segment, ShapeRef, Which
from pertxogai.drawing.places import NM_PER_UM
from pertxogai.exact import (
    Number, Root, Vector, apart, between, cross, dot, least, length, off, quotient, square)
from pertxogai.judging.measure.directions import Line
from pertxogai.judging.measure.solution import Solution
from pertxogai.spelling.linear import small


def nm(value_um: Fraction) -> Number:
    """Nanometres of micrometres."""
    if value_um.denominator == 1:
        return value_um.numerator * NM_PER_UM
    return small(value_um * NM_PER_UM)


@dataclass(frozen=True)
class Placed:
    """A drawing and the printed numbers behind it. All methods raise MissingPlace."""

    drawing: Drawing
    solution: Solution
    _lines: dict[str, Line] = field(default_factory=dict, init=False, repr=False, compare=False)
    """The lines that were asked for, by their names."""

    def spot(self, ref: PointRef) -> Vector:
        """Where a point lies."""
        return self.solution.spot(ref)

    def centre(self, rim: ShapeRef) -> Vector:
        """Where the centre of a rim lies."""
        return self.spot(PointRef(rim.name, Which.CENTRE))

    def radius(self, rim: ShapeRef) -> Number:
        """The radius of a rim."""
        return self.solution.radius(rim.name)

    def is_line(self, shape: ShapeRef) -> bool:
        """Whether a shape is a segment or an axis."""
        return isinstance(self.drawing.shape(shape.name), Segment | Axis)

    def line(self, line: ShapeRef) -> Line:
        """A segment, from its start to its end, or an axis."""
        known = self._lines.get(line.name)
        if known is None:
            known = self._lines[line.name] = self._line(line.name)
        return known

    def _line(self, name: str) -> Line:
        shape = self.drawing.shape(name)
        if isinstance(shape, Axis):
            right = self.right()
            upwards = (-right[1], right[0])
            return Line(self.spot(ORIGIN), upwards if shape.upwards else right, False)
        start, end = (self.spot(PointRef(name, which)) for which in (Which.START, Which.END))
        return Line(start, between(start, end), True)

    def right(self) -> Vector:
        """The direction of the x axis."""
        return self.solution.frame.right

    def x_and_y(self, way: Vector) -> tuple[Root, Root]:
        """How far a way goes along the x axis and along the y axis."""
        right = self.right()
        return (quotient(dot(right, way), square(right)),
                quotient(cross(right, way), square(right)))

    def off_line(self, point: Vector, line: Line, wanted_nm: Number) -> int:
        """How far the distance of a point from a line is off the one that is wanted, on either
        side; of a line without a direction, the distance from its start."""
        way = between(line.start, point)
        if square(line.way) == 0:
            return off(length(way), wanted_nm)
        aside = cross(line.way, way)
        return off(quotient(max(aside, -aside), square(line.way)), wanted_nm)

    def off_rim(self, point: Vector, rim: ShapeRef) -> int:
        """How far a point lies off a rim."""
        return off(length(between(self.centre(rim), point)), self.radius(rim))

    def off_drawn(self, ref: PointRef) -> int:
        """How far a point lies from where it is drawn, measured from the datum."""
        drawn = self.drawing.drawn(ref)
        wanted = (nm(drawn.x_um), nm(drawn.y_um))
        way = between(self.spot(ORIGIN), self.spot(ref))
        right = self.right()
        # The way and the wanted one have the scalar product `turned` / root(square(right)).
        turned = wanted[0] * dot(right, way) + wanted[1] * cross(right, way)
        overlap = quotient(2 * turned, square(right))
        both = square(way) + square(wanted)
        return least(lambda t: overlap.at_least(both - t * t))

    def off_drawn_radius(self, name: str) -> Number:
        """How far a whole circle's radius is off the drawn one; 0 for anything else."""
        shape = self.drawing.shape(name)
        if not isinstance(shape, Circle):
            return 0
        return self.solution.radius(name) - nm(shape.radius_um)

    def apart(self, first: PointRef, second: PointRef) -> int:
        """How far two points are from being one."""
        return apart(self.spot(first), self.spot(second))
