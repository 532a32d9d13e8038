"""The dimensions of a drawing with their tolerances, and a drawing in which some lie off."""
from __future__ import annotations

from collections.abc import Mapping
from dataclasses import dataclass, replace
from fractions import Fraction
from functools import cached_property
from math import atan2, ceil, degrees

from pertxogai.drawing import (
    VALUED, AngleBetween, Arc, Degrees, Drawing, DrawingUnsound, PointRef, Radius,
    Segment, Sense, ShapeRef, Slope, Valued, Which, WordFault, XDistance, YDistance, run_um, turn)
from pertxogai.drawing.constraint_checks import check_constraint
from pertxogai.drawing.tolerances.iso2768 import Table
from pertxogai.exact import between, cross, root, square
from pertxogai.fitting.offs import Off
from pertxogai.judging.measure import Solution
from pertxogai.judging.measure.placed import Placed

MILLIONTHS = 1_000_000
"""Parts of a millimetre, which are nanometres, and of a degree."""
LESS = Fraction(999, 1000)
"""A lesser angle is this part of it."""
HALF_TURN = Fraction(1, 1000)
"""An arc whose sine is no more goes half way round, or a seventeenth of a degree less."""
MOST_APART = 5
"""Of an angle no two neighbouring values are more degrees apart at which it is tried."""
PARTS = 10 ** 12
"""To this part of a degree an angle by a ratio is told in degrees."""


@dataclass(frozen=True)
class Toleranced:
    """A dimension that may lie off: the place of its constraint, from 1, and how far it may lie
    below and above, in micrometres or degrees; less than 0 means on the other side. is_general:
    whether the drawing's general tolerance says so."""

    number: int
    below: Fraction
    above: Fraction
    is_angle: bool
    is_general: bool

    @cached_property
    def base(self) -> Fraction:
        """How far off it is where all others are tried: as it is given, or at the end next to that
        where both lie on one side."""
        return Off(min(max(Fraction(0), -self.below), self.above))

    @cached_property
    def ends(self) -> tuple[Fraction, Fraction, Fraction]:
        """How far off it is at its least, within, and at its greatest: within as it is given, where
        that is no end, else in the middle."""
        low, high = Off(-self.below), Off(self.above)
        return low, self.base if low < 0 < high else Off((low + high) / 2), high

    @cached_property
    def steps(self) -> tuple[Fraction, ...]:
        """How far off it is where it is tried besides: nowhere, but for an angle that varies by
        many degrees, over which a check may turn round where the ends don't show it."""
        low, inner, high = self.ends
        if not self.is_angle:
            return ()
        return tuple(each for begin, end in ((low, inner), (inner, high))
                     for each in _between(begin, end))

    def width(self) -> Fraction:
        """From the least to the greatest value."""
        return self.below + self.above

    def has(self, off: Fraction) -> bool:
        """Whether it may be so far off."""
        low, _, high = self.ends
        return off is low or off is high or low <= off <= high


def _between(begin: Fraction, end: Fraction) -> list[Fraction]:
    """As few degrees, evenly between two, as leave none too far apart."""
    count = ceil((end - begin) / MOST_APART)
    return [Off(begin + (end - begin) * step / count) for step in range(1, count)]


@dataclass(frozen=True)
class Dimensions:
    """The dimensions of a drawing: those with a tolerance, and the places of those that count as
    exact since nothing gives them one."""

    toleranced: tuple[Toleranced, ...]
    exact: tuple[int, ...]

    @staticmethod
    def of(drawing: Drawing, solution: Solution) -> Dimensions:
        """Those of a drawing that is placed: an angle's general tolerance goes by the length of
        its shorter side there."""
        found: list[Toleranced] = []
        exact: list[int] = []
        for number, each in enumerate(drawing.constraints, start=1):
            if isinstance(each, VALUED):
                below, above, is_general = _off(drawing, solution, each)
                if below or above:
                    is_angle = isinstance(each, AngleBetween)
                    found.append(Toleranced(number, below, above, is_angle, is_general))
                else:
                    exact.append(number)
        return Dimensions(tuple(found), tuple(exact))


def _off(drawing: Drawing, solution: Solution, each: Valued) -> tuple[Fraction, Fraction, bool]:
    """How far a dimension may lie below and above, and whether its general tolerance says so."""
    if each.tolerance is not None:
        return each.tolerance.below, each.tolerance.above, False
    general = drawing.tolerancing.general
    off = general.off(*_size(drawing, solution, each)) if general is not None else None
    return off or Fraction(0), off or Fraction(0), off is not None


def _size(drawing: Drawing, solution: Solution, each: Valued) -> tuple[Table, Fraction]:
    """In which table of general tolerances a dimension stands, and by which size."""
    if isinstance(each, AngleBetween):
        placed = Placed(drawing, solution)  # To a whole micrometre: ends are rounded to nanometres.
        sides = [round(root(square(placed.line(side).way)) / 1000) for side
                 in (each.first, each.second) if isinstance(drawing.shape(side.name), Segment)]
        return Table.ANGULAR, Fraction(min(sides, default=0))
    is_edge = isinstance(each, Radius) and _breaks_edge(drawing, solution, each.rim)
    return Table.BROKEN_EDGE if is_edge else Table.LINEAR, abs(each.value_um)


def _breaks_edge(drawing: Drawing, solution: Solution, rim: ShapeRef) -> bool:
    """Whether a rim is an arc of less than half a turn, as the rounding of a corner is; what goes
    half way round or more, as the end of a slot, is a feature with a size."""
    if not isinstance(drawing.shape(rim.name), Arc):
        return False
    placed = Placed(drawing, solution)
    centre = placed.centre(rim)
    start, end = (between(centre, placed.spot(PointRef(rim.name, which)))
                  for which in (Which.START, Which.END))
    return cross(start, end) > square(start) * HALF_TURN


def moved(drawing: Drawing, offs: Mapping[int, Fraction]) -> Drawing:
    """A drawing in which the dimensions of some places, from 1, lie so far off, in micrometres or
    degrees. Raises DrawingUnsound where one can't have such a value."""
    return Moving(drawing).moved(offs)


class Moving:
    """A drawing of which dimensions lie off, one case after the other. A dimension that is off by
    as much as before is the same constraint as then."""

    def __init__(self, drawing: Drawing) -> None:
        self._drawing = drawing
        self._known: dict[tuple[int, Fraction], Valued] = {}

    def moved(self, offs: Mapping[int, Fraction]) -> Drawing:
        """The drawing with the dimensions of these places, from 1, so far off, in micrometres or
        degrees. Raises DrawingUnsound where one can't have such a value."""
        constraints = list(self._drawing.constraints)
        for number, off in offs.items():
            each = constraints[number - 1]
            if off and isinstance(each, VALUED):
                constraints[number - 1] = self._dimension(number, each, off)
        return self._drawing.with_numbers(tuple(constraints))

    def _dimension(self, number: int, each: Valued, off: Fraction) -> Valued:
        """The dimension of that place, so far off. Raises DrawingUnsound."""
        known = self._known.get((number, off))
        if known is None:
            known = self._known[number, off] = self._checked(number, each, off)
        return known

    def _checked(self, number: int, each: Valued, off: Fraction) -> Valued:
        """The same, worked out anew."""
        anew = _off_by(self._drawing, each, off)
        try:
            check_constraint(self._drawing.scene, anew)
        except WordFault as fault:
            raise DrawingUnsound(self._drawing.called(number), fault.word, fault.what) from None
        return anew


def _off_by(drawing: Drawing, each: Valued, off: Fraction) -> Valued:
    """A dimension that is so much more than it is written. One without a sign is more to the side
    where it is drawn, and may so come to lie on the other side: it is told by its sign then."""
    match each:
        case XDistance() | YDistance():
            is_back = each.sense is Sense.DRAWN and not drawing.meetings.is_ahead(each)
            return replace(each, value_um=run_um(drawing, each) + (-off if is_back else off),
                           sense=Sense.SIGNED, expression=None)
        case AngleBetween():
            turned = _turned(drawing, each) + off * _way(drawing, each)
            return replace(each, value=Degrees(turned), sense=Sense.SIGNED, expression=None)
        case _:
            return replace(each, value_um=each.value_um + off, expression=None)


def _turned(drawing: Drawing, angle: AngleBetween) -> Fraction:
    """The turn of an angle in degrees, from -180 to 180."""
    there = turn(drawing, angle)
    if not isinstance(there, Slope):
        return there.value
    turned = degrees(atan2(there.p, there.q)) + 180 * there.backward
    return Fraction(round((turned - 360 if turned > 180 else turned) * PARTS), PARTS)


def _way(drawing: Drawing, angle: AngleBetween) -> int:
    """1 where more of an angle as it is written turns more to the left, else -1. Of lines that
    cross the drawing tells which of their two angles is meant, which may be the other one for a
    greater value: so it is looked at a lesser one. A ratio always tells the acute one."""
    if angle.sense is Sense.SIGNED:
        return 1
    there, value = turn(drawing, angle), angle.value
    if isinstance(there, Slope):
        return 1 if there.p > 0 else -1
    assert isinstance(value, Degrees)
    less = replace(angle, value=Degrees(value.value * LESS), expression=None)
    return 1 if _turned(drawing, less) < there.value else -1
