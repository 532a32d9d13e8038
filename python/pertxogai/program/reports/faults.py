"""Why there are no coordinates: each kind of fault line."""
from __future__ import annotations

import re
from dataclasses import dataclass
from enum import Enum
from fractions import Fraction

from pertxogai.language.clusters import ClusterName
from pertxogai.program.reports.rows import CLUSTER, COUNT, NAME, WHOLE, Rows, cluster, whole

_QUANTITIES = (
    "base2|base|first2|second2|foot|height|ex|ey|gap1|gap2|tilt|rise|lift|reach|cos|sin|det"
    "|f|g|x|y|a|b|c"
    "|span2|fx|fy|tx|ty|det1|det2|size"
)
_AT = f"fault s({COUNT}) (build|first|second) ({_QUANTITIES}) ({NAME})"
_NUMBER = f"{_AT} (flat|gap) ({WHOLE}) ({WHOLE}) bits (16|27|38)"
_RANGE = f"{_AT} range bits (16|27|38)"
_FRAME = f"fault frame ({_QUANTITIES}) ({NAME}) range bits (16|27|38)"
_CONSTRAINT = f"fault c({COUNT}) tolerance ({COUNT}) (nm|ppb) limit ({COUNT})"
_LINE = f"fault line ({NAME}) tolerance ({COUNT}) ppb limit ({COUNT})"
_TURNED = f"fault ({CLUSTER}) turned drawn ([+-]) placed (-1|0|1)"


class Phase(Enum):
    """What a step was doing: constructing the element shared by the two clusters that are moved, or
    moving the first or the second of them into place."""

    BUILD = "build"
    FIRST = "first"
    SECOND = "second"


class Cause(Enum):
    """Why a number has no root or quotient. FLAT: it can't be told from 0 (degenerate). GAP: no
    shape has it with the choices of steps that the drawing makes (no real solution)."""

    FLAT = "flat"
    GAP = "gap"


class Unit(Enum):
    """The unit of a tolerance: nanometres, or parts per 10^9."""

    NM = "nm"
    PPB = "ppb"


@dataclass(frozen=True)
class StepAt:
    """Where a step stopped: its number, its phase, the name of the number that was computed, and
    the element."""

    step: int
    phase: Phase
    quantity: str
    element: str

    def text(self) -> str:
        """The beginning of the fault line."""
        return f"fault s{self.step} {self.phase.value} {self.quantity} {self.element}"


@dataclass(frozen=True)
class NumberFault:
    """The radicand or divisor lies between `low` and `high`, in units of 2^-bits. FLAT: it can't be
    told from 0. GAP: no shape has it with these choices of steps; with boxes on no grid, with
    points on this one."""

    at: StepAt
    cause: Cause
    low: int
    high: int
    bits: int

    def ends(self) -> tuple[Fraction, Fraction]:
        """The two ends as numbers, in mm or mm², depending on the quantity."""
        return Fraction(self.low, 1 << self.bits), Fraction(self.high, 1 << self.bits)

    def text(self) -> str:
        """The line that the program writes."""
        return f"{self.at.text()} {self.cause.value} {self.low} {self.high} bits {self.bits}\n"


@dataclass(frozen=True)
class RangeFault:
    """A number is out of the range of the grid: the proportions of the sketch are too extreme."""

    at: StepAt
    bits: int

    def text(self) -> str:
        """The line that the program writes."""
        return f"{self.at.text()} range bits {self.bits}\n"


@dataclass(frozen=True)
class FrameFault:
    """A number is out of range when the placed sketch is moved to its drawn position: the name of
    the number, and the element. No step and no constraint causes this."""

    quantity: str
    element: str
    bits: int

    def text(self) -> str:
        """The line that the program writes."""
        return f"fault frame {self.quantity} {self.element} range bits {self.bits}\n"


@dataclass(frozen=True)
class ConstraintFault:
    """The constraint of that number is met only within `tolerance`, in nm or ppb, which is above
    the limit."""

    constraint: int
    tolerance: int
    unit: Unit
    limit: int

    def text(self) -> str:
        """The line that the program writes."""
        return (
            f"fault c{self.constraint} tolerance {self.tolerance} {self.unit.value} limit"
            f" {self.limit}\n"
        )


@dataclass(frozen=True)
class LineFault:
    """The squared length of a line's normal differs from 1 by `tolerance_ppb`, which is above the
    limit."""

    name: str
    tolerance_ppb: int
    limit_ppb: int

    def text(self) -> str:
        """The line that the program writes."""
        return (
            f"fault line {self.name} tolerance {self.tolerance_ppb} ppb limit {self.limit_ppb}\n"
        )


@dataclass(frozen=True)
class TurnedFault:
    """The orientation of a step, angle or block differs from the drawn one: drawn +1 or -1, placed
    -1, 0 or 1."""

    of: ClusterName
    drawn: int
    placed: int

    def text(self) -> str:
        """The line that the program writes."""
        return (
            f"fault {self.of.text()} turned drawn {'+' if self.drawn > 0 else '-'} placed"
            f" {self.placed}\n"
        )


Fault = NumberFault | RangeFault | FrameFault | ConstraintFault | LineFault | TurnedFault
"""Why there are no coordinates."""


def read_fault(text: str) -> Fault:
    """Reads a fault from its line. Raises NotAReport."""
    with whole(text, "a fault") as rows:
        return take_fault(rows)


def take_fault(rows: Rows) -> Fault:
    """The fault that the next line names. Raises NotAReport."""
    if found := rows.take_if(_NUMBER):
        rows.claim(int(found[6]) <= int(found[7]))
        return NumberFault(
            _at(found), Cause(found[5]), int(found[6]), int(found[7]), int(found[8])
        )
    if found := rows.take_if(_RANGE):
        return RangeFault(_at(found), int(found[5]))
    if found := rows.take_if(_FRAME):
        return FrameFault(found[1], found[2], int(found[3]))
    if found := rows.take_if(_CONSTRAINT):
        rows.claim(int(found[2]) > int(found[4]))
        return ConstraintFault(int(found[1]), int(found[2]), Unit(found[3]), int(found[4]))
    if found := rows.take_if(_LINE):
        rows.claim(int(found[2]) > int(found[3]))
        return LineFault(found[1], int(found[2]), int(found[3]))
    found = rows.take(_TURNED)
    rows.claim(found[3] != f"{found[2]}1".removeprefix("+"))
    return TurnedFault(cluster(found[1]), 1 if found[2] == "+" else -1, int(found[3]))


def _at(found: re.Match[str]) -> StepAt:
    return StepAt(int(found[1]), Phase(found[2]), found[3], found[4])
