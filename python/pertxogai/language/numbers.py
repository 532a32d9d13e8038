"""The numbers of the language: whole micrometres, and tangents as two whole numbers.

A number that the language can't hold raises `NotHeld`, which names the nearest that it can.
"""
from __future__ import annotations

import math
import re
from collections.abc import Iterator
from decimal import Decimal
from fractions import Fraction

MOST_UM = 1_000_000_000
MOST_RATIO = 10_000
Exact = int | float | Fraction | Decimal | str
_DECIMAL = re.compile(r"-?[0-9]{1,15}(\.[0-9]{0,15})?")
_NUMBER = re.compile(r"(-?)([0-9]{1,7})(?:\.([0-9]{1,3}))?")
_RATIO = re.compile(r"(-?[0-9]{1,5})/([0-9]{1,5})")


class NotHeld(ValueError):
    """A number that the language can't represent. `nearest` is the text of the nearest one that it
    can, or None."""

    def __init__(self, what: str, nearest: str | None) -> None:
        super().__init__(what + (f"; the nearest is {nearest}" if nearest else ""))
        self.nearest = nearest


def micrometres(millimetres: Exact) -> int:
    """Whole micrometres of a number of millimetres: 2, "2.5", 2.5, Fraction(5, 2), Decimal("2.5").
    A float stands for the shortest decimal that reads back as it, so 0.1 is a tenth. Raises NotHeld
    if the result isn't whole, or is beyond 1,000,000 mm."""
    exact = 1000 * _exact(millimetres)
    um = nearest_whole(exact)
    return checked_um(um if um == exact else exact)


def _exact(number: Exact) -> Fraction:
    """The number itself. Raises NotHeld where a word or float is none."""
    is_number = math.isfinite(number) if isinstance(number, float) else True
    if isinstance(number, str):
        is_number = _DECIMAL.fullmatch(number) is not None
    if isinstance(number, Decimal):
        is_number = number.is_finite() and abs(number.adjusted()) < 30
    if not is_number:
        raise NotHeld(f"{number!r} is no number of millimetres such as 2.5", None)
    return Fraction(repr(number)) if isinstance(number, float) else Fraction(number)


def checked_um(value: int | Fraction, least: int = -MOST_UM) -> int:
    """The value, where the language holds so many micrometres. Raises NotHeld."""
    nearest = min(max(nearest_whole(value), least), MOST_UM)
    if nearest != value:
        shown = f"{float(Fraction(value) / 1000):.10g} mm"
        raise NotHeld(
            f"{shown} can't be represented: the language takes whole micrometres from"
            f" {mm_text(least)} to {mm_text(MOST_UM)} mm",
            f"{mm_text(nearest)} mm",
        )
    _check_whole(value)
    return nearest


def checked_length_um(value: int | Fraction) -> int:
    """The value, where a length or radius may be so many micrometres: above 0. Raises NotHeld."""
    return checked_um(value, 1)


def checked_ratio(p: int, q: int) -> None:
    """Raises NotHeld where the language holds no angle of the tangent p/q."""
    _check_whole(p)
    _check_whole(q)
    if p == 0:
        raise NotHeld(
            "an angle of 0 is no constraint: see 'Parallel lines' in docs/LANGUAGE.md", None
        )
    if q < 0 or abs(p) > MOST_RATIO or q > MOST_RATIO:
        raise NotHeld(
            f"the ratio {p}/{q} can't be represented: its numbers go to {MOST_RATIO},"
            " the second from 0",
            "{}/{}".format(*nearest_ratio(p, q)),
        )


def _check_whole(number: object) -> None:
    """Raises TypeError at a number that is whole by its value alone, as 4000.0."""
    if not isinstance(number, int):
        raise TypeError(f"{number!r} is no int: give a whole number, such as micrometres(..) "
                        "returns")


def nearest_ratio(p: int | Fraction, q: int | Fraction) -> tuple[int, int]:
    """The ratio of the language whose tangent (up to 45 degrees) or cotangent is nearest to that of
    p/q."""
    if q == 0:
        return (1, 0) if p > 0 else (-1, 0)
    above, below = p.numerator * q.denominator, p.denominator * q.numerator
    sign = -1 if (above < 0) != (below < 0) and above else 1
    above, below = abs(above), abs(below)
    if above <= below:
        less, more = _limited(above, below)
        return (sign * less, more) if less else (sign, MOST_RATIO)
    less, more = _limited(below, above)
    return sign * more, less


def _limited(less: int, more: int) -> tuple[int, int]:
    """The fraction nearest to less/more, from 0 to 1, of which the second number isn't beyond
    MOST_RATIO: as `Fraction.limit_denominator`, whose fractions take most of the time."""
    divisor = math.gcd(less, more)
    less, more = less // divisor, more // divisor
    if more <= MOST_RATIO:
        return less, more
    before, last, above, below = (0, 1), (1, 0), less, more
    while True:
        part, rest = divmod(above, below)
        following = before[0] + part * last[0], before[1] + part * last[1]
        if following[1] > MOST_RATIO:
            break
        before, last, above, below = last, following, below, rest
    part = (MOST_RATIO - before[1]) // last[1]
    beside = before[0] + part * last[0], before[1] + part * last[1]
    off, other = (abs(each[0] * more - less * each[1]) for each in (last, beside))
    return last if off * beside[1] <= other * last[1] else beside


def ratios_beside(p: int, q: int) -> Iterator[tuple[int, int]]:
    """The ratios that the language holds nearest to p/q, one of a lesser and one of a greater size:
    by their tangents up to 45 degrees, else by their cotangents; neither where it is 1/0."""
    less, more = sorted((abs(p), q))
    divisor, sign = math.gcd(p, q), -1 if p < 0 else 1
    less, more = less // divisor, more // divisor
    for step in (-1, 1) if less else ():
        least = -step * pow(less, -1, more) % more
        below = MOST_RATIO - (MOST_RATIO - least) % more
        above = (less * below + step) // more
        if 0 < above <= MOST_RATIO:
            yield (sign * above, below) if abs(p) < q else (sign * below, above)


def nearest_whole(value: int | Fraction) -> int:
    """The nearest whole number, halves away from zero."""
    if isinstance(value, int):
        return value
    exact = Fraction(value)
    whole = (2 * abs(exact.numerator) + exact.denominator) // (2 * exact.denominator)
    return whole if exact >= 0 else -whole


def mm_text(um: int) -> str:
    """Micrometres as the canonical number of millimetres: 2500 is `2.5`."""
    whole, rest = divmod(abs(um), 1000)
    digits = f"{whole}.{rest:03}".rstrip("0").rstrip(".")
    return "-" + digits if um < 0 else digits


def degrees_text(p: int, q: int) -> str:
    """The angle whose tangent is p/q in degrees to read, without its sign, to a ten-thousandth."""
    return f"{math.degrees(math.atan2(abs(p), q)):.4f}".rstrip("0").rstrip(".")


def read_um(word: str) -> int | None:
    """The micrometres of a number of the language, or None where the word is none or passes its
    limit."""
    found = _NUMBER.fullmatch(word)
    if found is None:
        return None
    sign, whole, rest = found.groups()
    um = int(whole) * 1000 + int((rest or "").ljust(3, "0"))
    if um > MOST_UM:
        return None
    return -um if sign else um


def read_ratio(word: str) -> tuple[int, int] | None:
    """The two numbers of a ratio of the language, or None where the word is none or passes its
    limit."""
    found = _RATIO.fullmatch(word)
    if found is None:
        return None
    p, q = int(found[1]), int(found[2])
    return (p, q) if abs(p) <= MOST_RATIO and q <= MOST_RATIO else None
