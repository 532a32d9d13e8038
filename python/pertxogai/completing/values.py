"""Values as a designer would write them: a hundredth of a millimetre where that is near enough,
else finer; a hundredth of a degree."""
from __future__ import annotations

from fractions import Fraction

STEPS_UM = (Fraction(10), Fraction(1))
"""What lengths are rounded to, the coarsest that is near enough."""
NEAR = Fraction(1, 200)
"""Near enough: within this part of the length. What is proposed is tried at twice that part more
and less, so rounding opens no gap."""
LEAST_UM = Fraction(1)
"""No length is shorter, as in the language."""
STEP_DEGREES = Fraction(1, 100)


def round_um(value_um: float) -> Fraction:
    """A length above 0 as it is written, in micrometres."""
    exact = Fraction(value_um)
    for step in STEPS_UM:
        rounded = step * round(exact / step)
        if rounded and abs(rounded - exact) <= NEAR * exact:
            return rounded
    return max(LEAST_UM, Fraction(round(exact)))


def round_degrees(value: float) -> Fraction:
    """An angle as it is written, in degrees."""
    return STEP_DEGREES * round(Fraction(value) / STEP_DEGREES)
