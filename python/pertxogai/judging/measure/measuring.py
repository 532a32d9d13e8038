"""Each of a designer's constraints, measured on the printed whole numbers.

All arithmetic is of whole numbers and fractions: a square root is compared by its square.
"""

from __future__ import annotations

from collections.abc import Iterator
from contextlib import suppress
from dataclasses import dataclass, field
from functools import cached_property

from pertxogai.drawing import Arc, Constraint, Drawing, PointRef, ShapeRef, Which, moved, points_of
from pertxogai.drawing.mentions import named
from pertxogai.exact import whole_up
from pertxogai.judging.measure.amounts import Amounts, amounts
from pertxogai.judging.measure.deviation import Because, Deviation, Implied, Unit
from pertxogai.judging.measure.placed import Placed
from pertxogai.judging.measure.solution import MissingPlace, Solution


Deviations = tuple[Deviation, ...]


@dataclass(frozen=True)
class Measurement:
    """A sound drawing at some positions, and the deviation of each of its constraints there. It is
    measured on demand, so no measurement reports what wasn't measured."""

    drawing: Drawing
    solution: Solution
    _known: dict[tuple[int, int], Deviations] = field(
        default_factory=dict, init=False, repr=False, compare=False)
    """What was measured already, by the numbers and the objects of the constraints."""

    @cached_property
    def by_constraint(self) -> tuple[Deviations, ...]:
        """The deviations of each constraint, in order. Raises MissingPlace."""
        placed = Placed(self.drawing, self.solution)
        return tuple(self._known.get((number, id(of))) or _each(number, of, amounts(placed, of))
                     for number, of in enumerate(self.drawing.constraints, start=1))

    @cached_property
    def all(self) -> Deviations:
        """All deviations in order: those of the constraints, then those of what the shapes imply.
        Raises MissingPlace."""
        implied = _implied_deviations(Placed(self.drawing, self.solution))
        return (*(each for some in self.by_constraint for each in some), *implied)

    def redrawn(self, drawing: Drawing, solution: Solution) -> Measurement:
        """The measurement of an edited drawing at its positions. What is unchanged, as drawn and as
        placed, isn't measured again."""
        found, elsewhere = Measurement(drawing, solution), moved(drawing, self.drawing)
        if elsewhere is not None and solution.frame == self.solution.frame:
            elsewhere |= solution.elsewhere(self.solution)
            numbered = enumerate(zip(self.drawing.constraints, self.by_constraint), start=1)
            found._known.update({(number, id(of)): deviations for number, (of, deviations)
                                 in numbered if elsewhere.isdisjoint(named(of))})
        return found


def measure(drawing: Drawing, solution: Solution) -> Deviations:
    """The deviations of all constraints of a sound drawing, in order, and then those of what its
    shapes imply. A constraint on a direction has two: in nanometres, how far the end of the shorter
    line is off it, and in ppb. Raises MissingPlace if a position that is needed wasn't printed."""
    return Measurement(drawing, solution).all


def measure_one(drawing: Drawing, solution: Solution, number: int) -> Deviations:
    """As `measure`, of the constraint of that number alone, from 1."""
    constraint = drawing.constraints[number - 1]
    return _each(number, constraint, amounts(Placed(drawing, solution), constraint))


def measure_placed(drawing: Drawing, solution: Solution) -> Deviations:
    """Like `measure`, but only for those whose positions were all printed: one rigid cluster of an
    under-constrained drawing."""
    return tuple(_deviations(Placed(drawing, solution)))


def _deviations(placed: Placed) -> Iterator[Deviation]:
    for number, constraint in enumerate(placed.drawing.constraints, start=1):
        with suppress(MissingPlace):
            yield from _each(number, constraint, amounts(placed, constraint))
    for implied in _implied_in(placed.drawing):
        with suppress(MissingPlace):
            yield from _each(None, implied, (_implied_nm(placed, implied), None))


def _each(number: int | None, of: Constraint | Implied, amounts: Amounts) -> Deviations:
    length = Deviation(number, of, amounts[0], Unit.NM)
    if amounts[1] is None:
        return (length,)
    return length, Deviation(number, of, amounts[1], Unit.PPB)


def _implied_deviations(placed: Placed) -> Deviations:
    return tuple(each for implied in _implied_in(placed.drawing)
                 for each in _each(None, implied, (_implied_nm(placed, implied), None)))


def _implied_in(drawing: Drawing) -> Iterator[Implied]:
    for pair in drawing.shared():
        yield Implied(pair.first, Because.SHARED, pair.second)
    for shape in drawing.geometry:
        for ref in points_of(shape) if shape.outer or isinstance(shape, Arc) else ():
            if isinstance(shape, Arc) and ref.which is not Which.CENTRE:
                yield Implied(ref, Because.RIM, ShapeRef(shape.name))
            if shape.outer:
                yield Implied(ref, Because.OUTER, ShapeRef(shape.name))


def _implied_nm(placed: Placed, implied: Implied) -> int:
    if isinstance(implied.to, PointRef):
        return placed.apart(implied.point, implied.to)
    if implied.because is Because.RIM:
        return placed.off_rim(placed.spot(implied.point), implied.to)
    return max(placed.off_drawn(implied.point),
               whole_up(placed.off_drawn_radius(implied.to.name)))
