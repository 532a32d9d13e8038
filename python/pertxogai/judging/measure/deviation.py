"""How far the printed numbers are off what was asked for."""

from __future__ import annotations

from collections.abc import Collection, Iterable
from dataclasses import dataclass
from enum import Enum

from pertxogai.drawing import Constraint, Drawing, PointRef, ShapeRef


class Unit(Enum):
    """The unit of an amount."""

    NM = "nm"
    """Nanometres."""
    PPB = "ppb"
    """Parts per 10^9 of a radian, by the sine."""


class Because(Enum):
    """Why something must hold that no constraint asks for; the values are for reports."""

    SHARED = "shares a point with"
    """A point that two shapes share is one point."""
    RIM = "is an end of the arc"
    """An arc's ends lie on its circle."""
    OUTER = "is given from outside as"
    """Outer geometry lies where it was given."""


@dataclass(frozen=True)
class Implied:
    """What holds because of the shapes themselves: a point, why, and the point or shape to which it
    is tied."""

    point: PointRef
    because: Because
    to: PointRef | ShapeRef

    def __str__(self) -> str:
        return f"{self.point} {self.because.value} {self.to}"


@dataclass(frozen=True)
class Deviation:
    """The deviation of a constraint: `amount` is the least whole number of units within which it
    holds at the printed numbers; for an angle in degrees, whose cosine is no fraction, it may be
    one more. `number` is the number of the constraint, from 1, or None for something implied."""

    number: int | None
    of: Constraint | Implied
    amount: int
    unit: Unit

    def called(self, drawing: Drawing) -> str:
        """Its name in a report."""
        return str(self.of) if self.number is None else drawing.called(self.number)


def greatest(deviations: Iterable[Deviation], unit: Unit) -> Deviation | None:
    """The first of the greatest deviations in this unit; None if there is none."""
    of_unit = [each for each in deviations if each.unit is unit]
    return max(of_unit, key=lambda each: each.amount) if of_unit else None


def worst(deviations: Collection[Deviation]) -> Deviation | None:
    """The greatest deviation in nanometres, before that of an angle."""
    return greatest(deviations, Unit.NM) or greatest(deviations, Unit.PPB)
