"""Within what a constraint has to hold, and which of those that were measured don't."""

from __future__ import annotations

import math
from collections.abc import Iterable, Iterator
from dataclasses import dataclass

from pertxogai.drawing import (
    AngleBetween, Constraint, Horizontal, Parallel, Perpendicular, ShapeRef, Vertical)
from pertxogai.judging.measure.deviation import Deviation, Implied, Unit, worst

ROUNDING_NM = 4
"""A direction is as good as whole nanometres can say it where the end of the shorter line lies no
further off: each of the two lines has two ends, and each of these is rounded."""
ROUNDING_PPB = 10 ** 7
"""No line that has a length is turned further by that: the least length is a micrometre."""
DEFAULT = 1000
"""The limit where none is told, as of the key `within` of the language."""
MOST = 1_000_000
"""The greatest limit, as of that key."""
_PPB = 10 ** 9


@dataclass(frozen=True)
class Limit:
    """The limit for each constraint: nanometres for a length, parts per 10^9 for a direction, the
    same number for both. `Limit(500)` is `--within 500` of a command, and `within=500` of the
    language."""

    amount: int = DEFAULT

    def __post_init__(self) -> None:
        if not 1 <= self.amount <= MOST:
            raise ValueError(f"a limit is a whole number from 1 to {MOST}")

    def beyond(self, deviations: Iterable[Deviation]) -> Iterator[Deviation]:
        """The constraints that don't hold within it, each once, by its length or its direction.
        `deviations` has the nanometres of a constraint before its ppb."""
        length_nm = 0
        for each in deviations:
            if each.unit is Unit.NM:
                length_nm = each.amount
                if self._is_too_long(each):
                    yield each
            elif each.amount > self.amount and not _is_rounding(length_nm, each.amount):
                if is_direction(each.of) or length_nm <= self.amount:
                    yield each

    def told(self, deviations: Iterable[Deviation]) -> Deviation | None:
        """The deviation of a constraint, of those that it has, that tells whether it holds within
        the limit: in nanometres, but in ppb where its direction alone is beyond the limit, or
        alone counts."""
        found = tuple(deviations)
        is_off = any(self.beyond(found))
        telling = [each for each in found if (each.amount > self.amount) is is_off]
        return worst(telling) or worst(found)

    def _is_too_long(self, off: Deviation) -> bool:
        return off.amount > self.amount and not is_direction(off.of)


def _is_rounding(length_nm: int, direction_ppb: int) -> bool:
    """Whether whole nanometres can't say a direction better."""
    return length_nm <= ROUNDING_NM and direction_ppb <= ROUNDING_PPB


def is_direction(of: Constraint | Implied) -> bool:
    """Whether a constraint asks for a direction alone, so that its length is told for a person,
    and its ppb count."""
    match of:
        case Parallel() | AngleBetween():
            return True
        case Perpendicular(at=at):
            return at is None
        case Horizontal(what) | Vertical(what):
            return isinstance(what, ShapeRef)
        case _:
            return False


def amount_text(off: Deviation) -> str:
    """A deviation, for people to read."""
    return units_text(off.amount, off.unit)


def units_text(amount: int, unit: Unit) -> str:
    """An amount, for people to read: in millimetres and degrees from a micrometre upwards, else in
    nanometres and ppb."""
    if amount < 1000:
        return f"{amount} {unit.value}"
    if unit is Unit.NM:
        return f"{_decimal(amount / 1e6)} mm"
    return f"{_decimal(math.degrees(_radians(amount)))} degrees"


def _radians(sine_ppb: int) -> float:
    """The angle of a sine in ppb, which goes on from 10^9 to 2 * 10^9 where the direction is
    beyond a right angle."""
    if sine_ppb <= _PPB:
        return math.asin(sine_ppb / _PPB)
    return math.pi - math.asin(max(0, 2 * _PPB - sine_ppb) / _PPB)


def _decimal(value: float) -> str:
    """A number with six digits that count, without needless zeros."""
    digits = f"{value:.6f}" if value < 1 else f"{value:.{max(0, 5 - int(math.log10(value)))}f}"
    return digits.rstrip("0").rstrip(".") if "." in digits else digits
