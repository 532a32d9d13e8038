"""The ranges of the values and dimensions of a good drawing."""
from __future__ import annotations

from collections.abc import Iterator
from dataclasses import dataclass
from fractions import Fraction
from typing import TYPE_CHECKING

from pertxogai.drawing import Drawing, Parameter, parameters
from pertxogai.judging.measure import Limit
from pertxogai.program import Solver
from pertxogai.ranging.faults import Fault
from pertxogai.ranging.range import Range, with_number
from pertxogai.ranging.search import Search
from pertxogai.search import check_libraries

if TYPE_CHECKING:  # It imports numpy: that a library is missing is said once a range is asked for.
    from pertxogai.ranging.way import Way


@dataclass(frozen=True)
class Ranging:
    """A good drawing, of which ranges are asked for."""

    drawing: Drawing
    way: Way

    @staticmethod
    def of(drawing: Drawing, program: Solver, limit: Limit = Limit(),
           not_drawn: tuple[str, ...] = ()) -> Ranging:
        """Of a drawing; not_drawn: what of its file the drawing can't express, besides what it
        tells itself. Raises NoRange if the drawing isn't good, MissingLibrary without numpy or
        scipy, and the exceptions of `judge_at_once`."""
        check_libraries()
        from pertxogai.ranging.way import Way

        return Ranging(drawing, Way.of(drawing, program, limit, not_drawn))

    def parameters(self) -> tuple[Parameter, ...]:
        """What has a range: the values, and the dimensions that don't follow from values."""
        return parameters(self.drawing)

    def range_of(self, of: Parameter) -> Range:
        """The range of one parameter. Raises ProgramError."""
        from pertxogai.ranging.tried_numbers import Numbers

        numbers = Numbers(self.drawing, self.way, of)
        search = Search(numbers.fault, numbers.present, numbers.low, numbers.high, numbers.beyond,
                        numbers.is_clear, numbers.at_end, numbers.rounding)
        low, high = search.border(False), search.border(True)
        return Range(of, numbers.end(low), numbers.end(high), search.asked,
                     low.is_clear and high.is_clear)

    def ranges(self) -> Iterator[Range]:
        """The range of each parameter. Raises ProgramError."""
        return map(self.range_of, self.parameters())

    def fault(self, of: Parameter, number: Fraction) -> Fault | None:
        """Why the drawing isn't good with another value for a parameter, in its unit, in whichever
        way it is encoded; None if it is. Raises ProgramError."""
        found = self.found_for(of, number)
        return found if isinstance(found, Fault) else None

    def found_for(self, of: Parameter, number: Fraction) -> Way | Fault:
        """The encoding with which the drawing is good with another value for a parameter, or why
        there is none. Raises ProgramError."""
        other = self.drawing_with(of, number)
        return other if isinstance(other, Fault) else self.way.found_for(other)

    def drawing_with(self, of: Parameter, number: Fraction) -> Drawing | Fault:
        """The drawing with another value for a parameter, or why there is none."""
        return with_number(self.drawing, of, number)
