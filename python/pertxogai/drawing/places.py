"""Exact places and lengths of a drawing.

Every coordinate, length and radius is a `Fraction` of micrometres, so that a value which was
written as a decimal of millimetres is kept as it was written.
"""

from __future__ import annotations

from dataclasses import dataclass
from decimal import Decimal, InvalidOperation
from fractions import Fraction

UM_PER_MM = 1000
"""Micrometres of a millimetre."""

NM_PER_UM = 1000
"""Nanometres of a micrometre."""


@dataclass(frozen=True)
class Place:
    """A position on the drawing, x to the right and y up, in micrometres from the origin."""

    x_um: Fraction
    y_um: Fraction

    def way_to(self, other: Place) -> tuple[Fraction, Fraction]:
        """The components of the way to another position, in micrometres."""
        return other.x_um - self.x_um, other.y_um - self.y_um


def um_of_mm(value: str | int | float | Decimal | Fraction) -> Fraction:
    """Micrometres of a number of millimetres, exactly. A float counts as the shortest decimal that
    reads as it, so 0.1 is a tenth. Raises ValueError if the value isn't a finite number."""
    if isinstance(value, (int, Fraction)):
        return Fraction(value) * UM_PER_MM
    try:
        decimal = Decimal(repr(value)) if isinstance(value, float) else Decimal(value)
        return Fraction(decimal) * UM_PER_MM
    except (InvalidOperation, OverflowError, ValueError):
        raise ValueError(f"{value!r} is no number of millimetres") from None


def place_mm(x: str | int | float | Decimal | Fraction,
             y: str | int | float | Decimal | Fraction) -> Place:
    """The position at x, y in millimetres. Raises ValueError as `um_of_mm` does."""
    return Place(um_of_mm(x), um_of_mm(y))
