"""What `excess` answers: of each part that is over, the constraints that are left out of it, and
how far off each is where the others place its elements."""
from __future__ import annotations

import re
from dataclasses import dataclass

from pertxogai.language.constraints import Angle, Block, Constraint
from pertxogai.program.reports.check import Part, take_any_part
from pertxogai.program.reports.faults import Fault, Unit, take_fault
from pertxogai.program.reports.plan import take_constraint
from pertxogai.program.reports.rows import COUNT, WHOLE, Rows, whole

_EXCESS = f"excess ({COUNT})"
_MEASURED = (
    f"c({COUNT}) : (.*) (repeat|conflict) off ({WHOLE}) (nm|ppb)"
    "(?: turned drawn ([+-]) placed (-1|0|1))?"
)
_NAMED = f"c({COUNT}) : (.*)"
_STAYS = "stays over"


@dataclass(frozen=True)
class Turned:
    """The orientation of an angle or a block differs from the drawn one: drawn +1 or -1, placed -1,
    0 or 1."""

    drawn: int
    placed: int

    def text(self) -> str:
        """The end of the line."""
        return f" turned drawn {'+' if self.drawn > 0 else '-'} placed {self.placed}"


@dataclass(frozen=True)
class Off:
    """The deviation of a constraint that is left out, where the kept ones place its elements: what
    these give minus the value of the constraint, in nm, or for an angle in parts per 10^9. It
    conflicts if it is flipped or off by more than the limit; otherwise it is redundant."""

    conflicts: bool
    amount: int
    unit: Unit
    turned: Turned | None = None

    def text(self) -> str:
        """The end of the line."""
        word = "conflict" if self.conflicts else "repeat"
        turned = self.turned.text() if self.turned else ""
        return f" {word} off {self.amount} {self.unit.value}{turned}"


@dataclass(frozen=True)
class Excessive:
    """A constraint that is left out: its number, its line, and its deviation; None if the kept
    constraints can't be placed."""

    number: int
    constraint: Constraint
    off: Off | None = None

    def text(self) -> str:
        """The line of the report."""
        return f"c{self.number} : {self.constraint.text()}{self.off.text() if self.off else ''}\n"


@dataclass(frozen=True)
class OverPart:
    """An over-constrained cluster, and the constraints that are left out of it, by number. fault:
    why the kept constraints can't be placed. If there is no fault and nothing is measured, the kept
    constraints are still over-constrained."""

    part: Part
    left_out: tuple[Excessive, ...]
    fault: Fault | None = None

    def stays_over(self) -> bool:
        """Whether the kept constraints are still over-constrained, though none of them can be left
        out."""
        return self.fault is None and all(it.off is None for it in self.left_out)

    def text(self) -> str:
        """The lines of the report."""
        end = self.fault.text() if self.fault else "stays over\n" if self.stays_over() else ""
        return self.part.text() + "".join(it.text() for it in self.left_out) + end


@dataclass(frozen=True)
class ExcessReport:
    """The over-constrained clusters, in order."""

    parts: tuple[OverPart, ...]

    def text(self) -> str:
        """The report as the program writes it."""
        return f"excess {len(self.parts)}\n" + "".join(part.text() for part in self.parts)


def read_excess(text: str) -> ExcessReport:
    """Reads the report of `excess`. Raises NotAReport."""
    with whole(text, "excess") as rows:
        parts: list[OverPart] = []
        for _ in range(int(rows.take(_EXCESS)[1])):
            parts.append(_over_part(rows, parts[-1].part.number if parts else 0))
    return ExcessReport(tuple(parts))


def _over_part(rows: Rows, before: int) -> OverPart:
    """The lines of the next part, whose number is above that of the one before. What is left out
    weighs as much as the part holds too much; less, where what is kept is over too."""
    part = take_any_part(rows)
    rows.claim(part.over and part.number > before)
    left_out, fault, stays = _left_out(rows)
    numbers, weight = [it.number for it in left_out], sum(_weight(it) for it in left_out)
    too_much = part.held - part.due
    rows.claim(numbers == sorted(set(numbers)))
    rows.claim(weight < too_much if stays else weight == too_much)
    return OverPart(part, left_out, fault)


def _left_out(rows: Rows) -> tuple[tuple[Excessive, ...], Fault | None, bool]:
    """What is left out, the fault of what is kept, and whether that is over too."""
    if rows.has(_MEASURED):
        return tuple(_take_excessive(rows, it) for it in rows.take_all(_MEASURED)), None, False
    named = tuple(
        Excessive(int(it[1]), take_constraint(rows, it[2])) for it in rows.take_all(_NAMED)
    )
    if rows.take_if(_STAYS):
        return named, None, True
    return named, take_fault(rows), False


def _take_excessive(rows: Rows, found: re.Match[str]) -> Excessive:
    constraint = take_constraint(rows, found[2])
    unit = Unit(found[5])
    turned = Turned(1 if found[6] == "+" else -1, int(found[7])) if found[6] else None
    rows.claim((unit is Unit.PPB) == isinstance(constraint, Angle))
    if turned:
        rows.claim(turned.drawn != turned.placed and found[3] == "conflict")
        rows.claim(isinstance(constraint, Angle | Block))
    off = Off(found[3] == "conflict", int(found[4]), unit, turned)
    return Excessive(int(found[1]), constraint, off)


def _weight(left: Excessive) -> int:
    """As many of the constraints that a part holds as this one is."""
    constraint = left.constraint
    return 2 * len(constraint.places) - 3 if isinstance(constraint, Block) else 1
