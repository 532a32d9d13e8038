"""The numbers that a parameter of a good drawing may have: which is good, why another isn't, and
whether by numbers nothing crosses between two."""
from __future__ import annotations

from collections.abc import Sequence
from fractions import Fraction

from pertxogai.drawing import Drawing, Parameter, Sense, Unit, XDistance, YDistance
from pertxogai.drawing.checks import MOST_UM
from pertxogai.drawing.numbers import MOST_MM, decimal_text
from pertxogai.drawing.values.parameters import Dimension, NamedValue
from pertxogai.ranging.faults import Fault, FaultKind, of_rounding
from pertxogai.ranging.passage import Passage
from pertxogai.ranging.range import End, steps_of, with_number
from pertxogai.ranging.search import Border
from pertxogai.ranging.spans import is_smooth
from pertxogai.ranging.things import Placement
from pertxogai.ranging.way import Held, Way

MOST_NUMBER = 9_999_999
"""No number of an expression is greater."""


class Numbers:
    """The numbers that a parameter may have, as whole numbers of steps from the one next to 0 that
    is a whole number of them away from the present one."""

    def __init__(self, drawing: Drawing, way: Way, of: Parameter) -> None:
        self._drawing, self._way, self._of = drawing, way, of
        self._steps = steps_of(of)
        self.present = round(of.present * self._steps)
        self._rest = of.present - Fraction(self.present, self._steps)
        low, high = _limits(drawing, of)
        self.low, self.high = min(low, self.present), max(high, self.present)
        self._things = way.things
        self._placements = {self.present: self._things.placed(way.edges)}
        self._offs: dict[int, Fault | None] = {}
        self._ways = [way]

    def _number(self, steps: int) -> Fraction:
        return Fraction(steps, self._steps) + self._rest

    def fault(self, number: int) -> Fault | None:
        """What is wrong with a number, by all ways that are known; the last of them says."""
        drawing = with_number(self._drawing, self._of, self._number(number))
        if isinstance(drawing, Fault):
            return drawing
        fault: Fault | None = None
        for way in self._ways:
            found = way.placed(drawing)
            if isinstance(found, Held):
                self._placements[number] = self._things.placed(found.edges)
                off = found.nearly
                self._offs[number] = None if off is None else way.off(off)
                return None
            fault = found
        self._offs[number] = fault if fault and fault.by_rounding else None
        return fault

    def rounding(self, number: int) -> Fault | None:
        """That a constraint is off by more than two thirds of the limit at a number that was
        tried, so that rounding decides whether it holds near that; None where none is."""
        off = self._offs.get(number)
        if off is None:
            return None
        unit = f" {self._of.unit.value}" if self._of.unit.value else ""
        return of_rounding(off, f"{decimal_text(self._number(number))}{unit}")

    def at_end(self, number: int) -> Fault | None:
        """What is wrong with a number, by whichever way; one that is found is known from now on."""
        drawing = with_number(self._drawing, self._of, self._number(number))
        found = drawing if isinstance(drawing, Fault) else self._way.found_for(drawing)
        if isinstance(found, Fault):
            return found
        self._ways.append(found)
        self._offs[number] = None
        self._placements[number] = self._things.placed(found.edges)
        return None

    def is_clear(self, numbers: Sequence[int]) -> bool:
        """Whether by numbers nothing crosses on the way through some good numbers, on which all
        expressions go smoothly."""
        if isinstance(self._of, NamedValue):
            low, high = sorted(map(self._number, (numbers[0], numbers[-1])))
            if not is_smooth(self._drawing, self._of.name, low, high):
                return False
        placements: list[Placement] = [self._placements[each] for each in numbers]
        return Passage.of(self._things, numbers, placements).is_clear()

    def beyond(self, number: int) -> Fault:
        """What is wrong with a number beyond the limits."""
        if not isinstance(self._of, Dimension):
            return Fault(FaultKind.LIMIT, f"no value beyond {MOST_NUMBER:,} is tried")
        if self._of.unit is Unit.DEGREES:
            return Fault(FaultKind.LIMIT, "at this angle the two lines are parallel")
        if abs(number) > MOST_UM:
            return Fault(FaultKind.LIMIT, f"no length goes beyond {MOST_MM:,} mm")
        return Fault(FaultKind.LIMIT, "no length is below 0.001 mm" if self.low
                     else "a value without a sign can't be below 0")

    def end(self, border: Border[Fault]) -> End:
        """An end of the range."""
        return End(self._number(border.good), border.fault)


def _limits(drawing: Drawing, of: Parameter) -> tuple[int, int]:
    """The least and the greatest number that a parameter may have, in steps."""
    steps = steps_of(of)
    if not isinstance(of, Dimension):
        return -MOST_NUMBER * steps, MOST_NUMBER * steps
    if of.unit is Unit.DEGREES:
        half_turn = 180 * steps
        half_turns = round(of.present * steps) // half_turn
        return half_turns * half_turn + 1, (half_turns + 1) * half_turn - 1
    dimension = drawing.constraints[of.number - 1]
    if not isinstance(dimension, XDistance | YDistance):
        return 1, MOST_UM
    return (-MOST_UM if dimension.sense is Sense.SIGNED else 0), MOST_UM
