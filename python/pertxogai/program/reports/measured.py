"""What `measure` answers: by how much given places are off each constraint."""
from __future__ import annotations

import re
from dataclasses import dataclass

from pertxogai.language.constraints import Angle, Block, Constraint
from pertxogai.program.reports.excess import Turned
from pertxogai.program.reports.faults import (
    ConstraintFault, FrameFault, LineFault, NumberFault, RangeFault, TurnedFault, Unit, take_fault)
from pertxogai.program.reports.plan import take_constraint
from pertxogai.program.reports.rows import COUNT, NAME, WHOLE, NotAReport, Rows, whole
from pertxogai.program.reports.solved import AtConstraint, AtLine, Tolerances, take_tolerances

_OFF = (
    f"c({COUNT}) : (.*) off ({WHOLE}) (nm|ppb)(?: turned drawn ([+-]) placed (-1|0|1))?"
)
_UNPLACED = f"measure fails element ({NAME})"


@dataclass(frozen=True)
class MeasuredOff:
    """The residual of a constraint: what the positions give minus the value of the constraint, in
    nm, or for an angle in parts per 10^9; and its orientation if that isn't as drawn."""

    number: int
    constraint: Constraint
    amount: int
    unit: Unit
    turned: Turned | None = None

    def text(self) -> str:
        """The line of the report."""
        turned = self.turned.text() if self.turned else ""
        return (
            f"c{self.number} : {self.constraint.text()} off {self.amount} {self.unit.value}"
            f"{turned}\n"
        )


MeasuredFault = ConstraintFault | LineFault | TurnedFault
"""What isn't met within the limit, or is flipped."""


@dataclass(frozen=True)
class Measured:
    """The residual of each constraint, by number; the least tolerances within which all hold; and
    the first failure, None if nothing is above the limit and nothing is flipped."""

    offs: tuple[MeasuredOff, ...]
    tolerances: Tolerances
    fault: MeasuredFault | None = None

    def text(self) -> str:
        """The report as the program writes it."""
        fault = self.fault.text() if self.fault else ""
        return "".join(it.text() for it in self.offs) + self.tolerances.text() + fault


@dataclass(frozen=True)
class Unplaced:
    """The first element that has no position, or is a circle of another radius."""

    element: str

    def text(self) -> str:
        """The line that the program writes."""
        return f"measure fails element {self.element}\n"


def read_measure(text: str) -> Measured | Unplaced:
    """Reads the report of `measure`. Raises NotAReport."""
    with whole(text, "measure") as rows:
        if found := rows.take_if(_UNPLACED):
            return Unplaced(found[1])
        offs = tuple(_off(rows, found) for found in rows.take_all(_OFF))
        rows.claim([it.number for it in offs] == list(range(1, len(offs) + 1)))
        tolerances = take_tolerances(rows)
        rows.claim(_is_least(tolerances, offs))
        return Measured(offs, tolerances, _take_fault(rows, offs))


def _off(rows: Rows, found: re.Match[str]) -> MeasuredOff:
    constraint, unit = take_constraint(rows, found[2]), Unit(found[4])
    turned = Turned(1 if found[5] == "+" else -1, int(found[6])) if found[5] else None
    rows.claim((unit is Unit.PPB) == isinstance(constraint, Angle))
    if turned:
        rows.claim(turned.drawn != turned.placed and isinstance(constraint, Angle | Block))
    return MeasuredOff(int(found[1]), constraint, int(found[3]), unit, turned)


def _is_least(tolerances: Tolerances, offs: tuple[MeasuredOff, ...]) -> bool:
    """Whether the tolerances are those of the offs: the greatest of either unit, and the first
    constraint that is off so much. A line may need more of an angle's, or as much."""
    length, length_at = _greatest(offs, Unit.NM)
    angle, angle_at = _greatest(offs, Unit.PPB)
    if (tolerances.length_nm, tolerances.length_at) != (length, length_at):
        return False
    if isinstance(tolerances.angle_at, AtLine):
        return tolerances.angle_ppb >= angle
    return (tolerances.angle_ppb, tolerances.angle_at) == (angle, angle_at)


def _greatest(offs: tuple[MeasuredOff, ...], unit: Unit) -> tuple[int, AtConstraint | None]:
    """The greatest size of the offs in this unit, and the first that has it."""
    sizes = [(abs(it.amount), -it.number) for it in offs if it.unit is unit]
    if not sizes:
        return 0, None
    size, number = max(sizes)
    return size, AtConstraint(-number)


def _take_fault(rows: Rows, offs: tuple[MeasuredOff, ...]) -> MeasuredFault | None:
    """The fault behind the tolerances, which fits the offs; None where there is none, and then
    nothing is turned. Raises NotAReport."""
    turned = [it for it in offs if it.turned]
    if rows.is_at_end():
        rows.claim(not turned)
        return None
    fault = take_fault(rows)
    if isinstance(fault, NumberFault | RangeFault | FrameFault):
        raise NotAReport("no report of measure: it names a fault of a placement")
    if isinstance(fault, ConstraintFault):
        off = (fault.constraint, fault.tolerance, fault.unit)
        rows.claim(off in [(it.number, abs(it.amount), it.unit) for it in offs])
    if isinstance(fault, TurnedFault):
        first = (turned[0].number, turned[0].turned) if turned else None
        rows.claim(not fault.of.is_step)
        rows.claim((fault.of.number, Turned(fault.drawn, fault.placed)) == first)
    return fault
