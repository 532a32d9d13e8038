"""Within what a sketch of the language holds at printed places: the two tolerances, by what
docs/LANGUAGE.md says of them, worked out beside the program."""

from __future__ import annotations

from collections.abc import Iterator, Mapping, Sequence
from dataclasses import dataclass
from fractions import Fraction
from itertools import combinations

from pertxogai.exact import (
    Vector, between, cross, dot, length, off, roots_apart, square, whole_up)
from pertxogai.language import (
    Angle, Block, Circle, Constraint, Distance, Element, Inside, Line, On, Outside, Placed,
    PlacedLine, Sketch, Tangent)

_BILLION = 10 ** 9
_NM_PER_UM = 1000


def sketch_tolerances(sketch: Sketch, places: Sequence[Placed]) -> tuple[int, int]:
    """The least whole numbers of nanometres and of parts per 10^9 within which each constraint, and
    the length of each line's normal, holds. `places` has each element, of its kind."""
    printed = _Printed({each.name: each for each in sketch.elements},
                       {each.name: each for each in places})
    angles = [printed.angle_ppb(each) for each in sketch.constraints if isinstance(each, Angle)]
    lengths = [nm for each in sketch.constraints for nm in printed.lengths_nm(each)]
    return max(lengths, default=0), max([*angles, *printed.normals_ppb()], default=0)


@dataclass(frozen=True)
class _Printed:
    """The elements of a sketch, as they are drawn and as they are placed."""

    drawn: Mapping[str, Element]
    placed: Mapping[str, Placed]

    def lengths_nm(self, constraint: Constraint) -> Iterator[int]:
        """How far the lengths of a constraint are off."""
        match constraint:
            case Distance(first, second, length_um):
                yield self._apart(first, second, _NM_PER_UM * length_um)
            case On(first, second):
                yield self._apart(first, second, self._radius(second))
            case Tangent(first, second) | Outside(first, second):
                yield self._apart(first, second, self._radius(first) + self._radius(second))
            case Inside(first, second):
                yield self._apart(first, second, abs(self._radius(first) - self._radius(second)))
            case Block(pins):
                for one, other in combinations(pins, 2):
                    way = _NM_PER_UM * (other.x_um - one.x_um), _NM_PER_UM * (other.y_um - one.y_um)
                    placed = between(self._spot(one.name), self._spot(other.name))
                    yield roots_apart(square(placed), square(way))

    def angle_ppb(self, angle: Angle) -> int:
        """How far an angle is off."""
        first, second = (self._normal(name) for name in angle.names())
        turn = angle.q * cross(first, second) - angle.p * dot(first, second)
        return whole_up(Fraction(turn, _BILLION * (abs(angle.p) + angle.q)))

    def normals_ppb(self) -> Iterator[int]:
        """How far the square of each line's normal is from that of the length 1."""
        for each in self.placed.values():
            if isinstance(each, PlacedLine):
                excess = each.a_ppb ** 2 + each.b_ppb ** 2 - _BILLION ** 2
                yield whole_up(Fraction(excess, _BILLION))

    def _apart(self, first: str, second: str, wanted_nm: int) -> int:
        """How far two elements are off a distance: of a point and a line on the drawn side."""
        if self._is_line(first):
            first, second = second, first
        if not self._is_line(second):
            return off(length(between(self._spot(first), self._spot(second))), wanted_nm)
        height = dot(self._normal(second), self._spot(first)) - _BILLION * self._line(second).c_nm
        return whole_up(Fraction(self._side(first, second) * height, _BILLION) - wanted_nm)

    def _side(self, point: str, line: str) -> int:
        """On which side of a line a point is drawn: 1 on its left and on it, else -1."""
        at, carrier = self.drawn[point], self.drawn[line]
        assert isinstance(carrier, Line) and not isinstance(at, Line)
        way = carrier.x2_um - carrier.x1_um, carrier.y2_um - carrier.y1_um
        return 1 if cross(way, (at.x_um - carrier.x1_um, at.y_um - carrier.y1_um)) >= 0 else -1

    def _radius(self, name: str) -> int:
        """A circle's radius in nm; 0 of the others."""
        drawn = self.drawn[name]
        return _NM_PER_UM * drawn.radius_um if isinstance(drawn, Circle) else 0

    def _is_line(self, name: str) -> bool:
        return isinstance(self.placed[name], PlacedLine)

    def _spot(self, name: str) -> Vector:
        place = self.placed[name]
        assert not isinstance(place, PlacedLine)
        return place.x_nm, place.y_nm

    def _line(self, name: str) -> PlacedLine:
        place = self.placed[name]
        assert isinstance(place, PlacedLine)
        return place

    def _normal(self, name: str) -> Vector:
        line = self._line(name)
        return line.a_ppb, line.b_ppb
