"""What becomes of a drawing by the program's verdict: it is placed, or a step of its construction
fails; it is in pieces; or dimensions are too many."""
from __future__ import annotations

from dataclasses import dataclass
from functools import cached_property
from typing import TYPE_CHECKING

from pertxogai.judging import departures
from pertxogai.judging.departures import Warned
from pertxogai.judging.measure.measuring import Measurement

if TYPE_CHECKING:  # What isn't well imports what is told of it alone.
    from pertxogai.judging.faults import Failure
    from pertxogai.judging.missing import Missing
    from pertxogai.judging.surplus import Surplus


@dataclass(frozen=True)
class WithPlaces:
    """It is well and placed. measurement: where it lies, in the datum's frame, in whole nanometres,
    and how far each constraint is off there. length_nm, angle_ppb: within how many nanometres of
    the drawing, and how many ppb, the program places it. is_free: whether nothing ties the drawing
    to the datum's directions. unsized: the circles of which neither a dimension nor the places tell
    the size."""

    measurement: Measurement
    length_nm: int
    angle_ppb: int
    is_free: bool = False
    unsized: tuple[str, ...] = ()

    @cached_property
    def warnings(self) -> tuple[Warned, ...]:
        """What lies otherwise than it is drawn, and what turns back; it is looked for when it is
        asked for."""
        placed = self.measurement
        return departures.warnings(placed.drawing, placed.solution, self.is_free)


@dataclass(frozen=True)
class WithFault:
    """It is well, and has no places: why."""

    failure: Failure


@dataclass(frozen=True)
class InPieces:
    """It is open: what is missing, and its pieces."""

    missing: Missing


@dataclass(frozen=True)
class WithSurplus:
    """It is over: each dimension that may go."""

    surplus: tuple[Surplus, ...]


State = WithPlaces | WithFault | InPieces | WithSurplus
