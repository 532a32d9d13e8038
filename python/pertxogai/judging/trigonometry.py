"""The direction of a turn to seventy digits."""
from __future__ import annotations

from decimal import Context, Decimal, localcontext
from fractions import Fraction
from functools import lru_cache

from pertxogai.drawing import Slope, Turn

DIGITS = Context(prec=80)
PI = Decimal("3.14159265358979323846264338327950288419716939937510582097494459230781640628620899")
LEAST = Decimal(10) ** -78


def way_of(turn: Turn) -> tuple[Fraction, Fraction]:
    """How far a direction goes ahead and to the left, of any length."""
    if isinstance(turn, Slope):
        way = Fraction(turn.q), Fraction(turn.p)
        return (-way[0], -way[1]) if turn.backward else way
    return _way(turn.value % 360)


@lru_cache(maxsize=1024)
def _way(degrees: Fraction) -> tuple[Fraction, Fraction]:
    """The cosine and the sine of an angle; those of a right angle more are these, turned."""
    if degrees >= 90:
        ahead, left = _way(degrees - 90)
        return -left, ahead
    with localcontext(DIGITS):
        radians = PI * degrees.numerator / degrees.denominator / 180
        return Fraction(_series(radians, 0)), Fraction(_series(radians, 1))


def _series(radians: Decimal, begin: int) -> Decimal:
    """The cosine, from 0, or the sine, from 1, by its series."""
    term = radians ** begin if begin else Decimal(1)
    total, place = term, begin
    while abs(term) > LEAST:
        place += 2
        term = -term * radians * radians / (place * (place - 1))
        total += term
    return total
