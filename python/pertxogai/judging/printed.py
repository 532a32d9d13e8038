"""Printed places in the frame of the drawing's datum, exactly, and then rounded to whole
nanometres."""
from __future__ import annotations

from collections.abc import Mapping, Sequence
from dataclasses import dataclass, field
from fractions import Fraction
from math import cos, lcm, sin

from pertxogai.exact import Vector, root, square, whole_near
from pertxogai.judging.turning import KnownSum, axis_of, drawn_axis, known_sum
from pertxogai.language import Placed, PlacedLine, PlacedPoint
from pertxogai.spelling.axes import Axes
from pertxogai.spelling.drafts import PointUm
from pertxogai.spelling.facts import DATUM
from pertxogai.spelling.linear import Number, small
from pertxogai.spelling.writing import Heading, Spelled


@dataclass(frozen=True)
class PrintedPlaces:
    """Printed points and lines by their names: the points in micrometres of the drawing, the lines
    as they are printed. per: how many printed nanometres a micrometre of the drawing has."""

    points: dict[str, PointUm]
    lines: dict[str, PlacedLine]
    per: int
    _known: dict[str, tuple[Number, Number, Number]] = field(default_factory=dict, init=False,
                                                             repr=False, compare=False)
    """The lines that were asked for."""

    @staticmethod
    def of(places: Sequence[Placed], scale: int) -> PrintedPlaces:
        """The places of a sketch that is so many times as large as the drawing."""
        per = 1000 * scale
        points: dict[str, PointUm] = {
            each.name: (_quotient(each.x_nm, per), _quotient(each.y_nm, per))
            for each in places if isinstance(each, PlacedPoint)}
        lines = {each.name: each for each in places if isinstance(each, PlacedLine)}
        return PrintedPlaces(points, lines, per)

    def line(self, name: str) -> tuple[Number, Number, Number]:
        """A line: the direction square to it, of length 1, and how far along that it lies, in
        micrometres."""
        known = self._known.get(name)
        if known is None:
            known = self._known[name] = _line(self.lines[name], self.per)
        return known

    def axis(self, headings: Sequence[Heading], frame: int) -> Vector | None:
        """The direction of a frame's first axis; None where none of its lines is here."""
        mine = [each for each in headings if each.frame == frame and each.name in self.lines]
        mine.sort(key=lambda each: each.quarters is None)
        if not mine:
            return None
        a, b, _ = self.line(mine[0].name)
        ahead, left = b, -a
        if mine[0].quarters is None:
            c, s = Fraction(cos(mine[0].radians)), Fraction(sin(mine[0].radians))
            return _of_length_one(ahead * c + left * s, left * c - ahead * s)
        return (ahead, left) if mine[0].quarters == 0 else (left, -ahead)

    def height(self, line: str, point: str) -> Number:
        """How far a point is from a line, in micrometres."""
        left = self.left_of(line, point)
        return max(left, -left)

    def left_of(self, line: str, point: str) -> Number:
        """How far a point is to the left of a line, in micrometres; below 0 to its right."""
        a, b, c = self.line(line)
        x, y = self.points[point]
        return a * x + b * y - c

    def foot(self, line: str) -> PointUm:
        """The line's place nearest to 0 0."""
        a, b, c = self.line(line)
        return a * c, b * c


def _quotient(value: int, by: int) -> Number:
    """A quotient, whole where it can be."""
    whole, rest = divmod(value, by)
    return Fraction(value, by) if rest else whole


def _line(line: PlacedLine, per: int) -> tuple[Number, Number, Number]:
    a, b = _of_length_one(Fraction(line.a_ppb), Fraction(line.b_ppb))
    return a, b, _quotient(line.c_nm, per)


def _of_length_one(a: Fraction, b: Fraction) -> Vector:
    if not a or not b:
        return (a > 0) - (a < 0), (b > 0) - (b < 0)
    size = root(square((a, b)))
    return a / size, b / size


def along(axis: Vector, upwards: bool, spot: PointUm) -> Number:
    """A place along an axis, or `upwards` along its left."""
    (a, b), (x, y) = axis, spot
    if b == 0:
        value = y if upwards else x
        return value if a == 1 else a * value
    return a * y - b * x if upwards else a * x + b * y


def in_datum(axes: Axes, spelled: Spelled, plate: PrintedPlaces) -> dict[str, tuple[int, int]]:
    """Each point in the datum's frame, in whole nanometres. Where the drawing isn't tied to an
    axis, the first point has its drawn coordinate there; where it has no direction, its first
    segment runs as it is drawn."""
    spots = {knot: plate.points[name] for knot, name in spelled.points.items()
             if name in plate.points}
    axis = plate.axis(spelled.headings, DATUM)
    if axis is None:
        told = axis_of(axes, spots) or drawn_axis(axes, spots)
        axis = (1, 0) if told is None else _of_length_one(*map(Fraction, told))
    shift = [_shift(axes, spelled, plate, axis, upwards) for upwards in (False, True)]
    if axis == (1, 0):
        return {name: (whole_near((x + shift[0]) * 1000), whole_near((y + shift[1]) * 1000))
                for name, (x, y) in plate.points.items()}
    return _turned(axis, shift, plate.points)


def _turned(axis: Vector, shift: Sequence[Number],
            points: Mapping[str, PointUm]) -> dict[str, tuple[int, int]]:
    """Places along an axis and to its left, shifted, in whole nanometres. Worked out on whole
    numbers: all is brought to one denominator."""
    below, (a, b) = _over_one(axis)
    found = {}
    for name, spot in points.items():
        per, (x, y) = _over_one(spot)
        found[name] = (_near_nm(a * x + b * y, below * per, shift[0]),
                       _near_nm(a * y - b * x, below * per, shift[1]))
    return found


def _over_one(way: Vector) -> tuple[int, tuple[int, int]]:
    """A denominator, and the numerators of two numbers over it."""
    x, y = way
    below = lcm(x.denominator, y.denominator)
    return below, (x.numerator * (below // x.denominator), y.numerator * (below // y.denominator))


def _near_nm(above: int, below: int, shift: Number) -> int:
    """The whole nanometre nearest to a fraction of micrometres and a shift."""
    above = (above * shift.denominator + shift.numerator * below) * 1000
    below *= shift.denominator
    return (2 * above + below) // (2 * below)


def is_tied(axes: Axes, spelled: Spelled) -> bool:
    """Whether the drawing says which way it lies to the datum's axes; else all of it may turn."""
    spots = {knot: (Fraction(x), Fraction(y)) for knot, (x, y) in axes.facts.drawn.items()
             if knot in spelled.points}
    return spelled.tied() or axis_of(axes, spots) is not None


def _shift(axes: Axes, spelled: Spelled, plate: PrintedPlaces, axis: Vector,
           upwards: bool) -> Number:
    """How far the printed places are moved along an axis: by a line that is the datum's, points
    of which the coordinate is told, or a sum of several, or the first point, which stays where it
    is drawn."""
    for each in spelled.headings:
        rail = each.rail
        if rail and rail.datum() and rail.upwards == upwards and each.name in plate.lines:
            return -along(axis, upwards, plate.foot(each.name))
    knots = {knot: name for knot, name in spelled.points.items() if name in plate.points}
    told = known_sum(axes, upwards, knots)
    if told is None:
        first = next(iter(knots))
        told = KnownSum({first: 1}, axes.facts.drawn[first][upwards])
    here = sum(factor * along(axis, upwards, plate.points[knots[knot]])
               for knot, factor in told.factors.items())
    return small(Fraction(told.value - here) / told.total())
