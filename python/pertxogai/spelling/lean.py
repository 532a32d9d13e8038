"""How one endless line leans against another, exactly: whole degrees and tangents, added up."""
from __future__ import annotations

from dataclasses import dataclass
from fractions import Fraction
from functools import lru_cache
from math import atan2, gcd, inf, pi, sin, tan

from pertxogai.drawing import Degrees, Slope, Turn
from pertxogai.language import nearest_ratio

MOST_RATIO = 10_000
MOST_WITHIN = 1e-9
"""In radians: a ratio that comes so near is surely a convergent, with room for rounding."""
SURELY = 1.001
"""This number of times as far is looked, so that none is passed over by rounding."""
TINY = 1e-15
"""The least rest of a continued fraction: less is rounding."""


@dataclass(frozen=True)
class Lean:
    """The turn from one line to another, up to half turns: `degrees` from 0 to below 180, and then
    the turn of the direction (`ahead`, `left`), two whole numbers without a common divisor. Leans
    that are the same are equal: a direction that is no turn of 45 degrees has all of these in
    itself, so that `degrees` is below 45."""

    degrees: Fraction = Fraction(0)
    ahead: int = 1
    left: int = 0

    @staticmethod
    def of(turn: Turn) -> Lean:
        """The lean of lines with this turn."""
        match turn:
            case Degrees(value):
                return _make(value, 1, 0)
            case Slope(p, q, _):
                return _make(Fraction(0), q, p)

    def __add__(self, other: Lean) -> Lean:
        if other.level():
            return self
        if self.level():
            return other
        return _make(self.degrees + other.degrees,
                     self.ahead * other.ahead - self.left * other.left,
                     self.ahead * other.left + self.left * other.ahead)

    def __sub__(self, other: Lean) -> Lean:
        if other.level():
            return self
        return _make(self.degrees - other.degrees,
                     self.ahead * other.ahead + self.left * other.left,
                     self.left * other.ahead - self.ahead * other.left)

    def __neg__(self) -> Lean:
        return self if self.level() else _make(-self.degrees, self.ahead, -self.left)

    def turned(self, degrees: Fraction) -> Lean:
        """The lean of a line that is turned by so many degrees more."""
        return _make(self.degrees + degrees, self.ahead, self.left)

    def level(self) -> bool:
        """Whether the lines are parallel."""
        return not self.degrees and not self.left

    def upright(self) -> bool:
        """Whether the lines are square to each other."""
        return self.degrees == 90 and not self.left

    def ratio(self) -> tuple[int, int]:
        """The tangent p, q as the language takes it: exact where that can be, else the nearest.
        Not for parallels."""
        way = self.way()
        if way is not None and self.exact():
            sign = -1 if way[0] < 0 or (way[0] == 0 and way[1] < 0) else 1
            return sign * way[1], sign * way[0]
        tangent = Fraction(tan(self.radians()))
        return nearest_ratio(tangent, 1)

    def halves(self, within: float = 0.0) -> tuple[Lean, Lean] | None:
        """Two leans by ratios of which the sum is this within 10^-11 or so, where no ratio is
        this; else None. within: the first two will do of which the sum is so near, in radians,
        which takes a small part of the time."""
        return None if self.exact() else _halves(self, within)

    def exact(self) -> bool:
        """Whether `ratio` is the lean itself."""
        way = self.way()
        return way is not None and abs(way[0]) <= MOST_RATIO and abs(way[1]) <= MOST_RATIO

    def way(self) -> tuple[int, int] | None:
        """The direction (ahead, left) in whole numbers; None where it has none."""
        if self.degrees % 45:
            return None
        ahead, left = _turn_by_eighths(self.ahead, self.left, self.degrees)
        divisor = gcd(ahead, left)
        return ahead // divisor, left // divisor

    def radians(self) -> float:
        """The turn in radians, near enough for a drawing."""
        turn = self.degrees.numerator / self.degrees.denominator
        return turn * pi / 180 + atan2(self.left, self.ahead)


@lru_cache(maxsize=8192)
def _halves(lean: Lean, within: float) -> tuple[Lean, Lean]:
    """The two ratios that come nearest, of those of which the first is small, or the first two that
    come so near."""
    goal, least = lean.radians(), inf
    best = _first_within(goal, within) if 0 < within <= MOST_WITHIN else None
    for first, turn in _small_leans() if best is None else ():
        near = _near_rest(goal - turn)
        off = inf if near is None else abs(sin(goal - turn - _turn_of(*near)))
        if near is not None and off < least:
            best, least = (first, near), off
        if least <= within:
            break
    assert best is not None
    first, (p, q) = best
    return first, _make(Fraction(0), q, p)


def _first_within(goal: float, within: float) -> tuple[Lean, tuple[int, int]] | None:
    """The first small lean, with the ratio of the rest, that come so near; None where none do. Most
    are passed over by a look at the rest alone."""
    for first, turn in _small_leans():
        if _may_have_ratio(goal - turn, within):
            near = _near_rest(goal - turn)
            if near is not None and abs(sin(goal - turn - _turn_of(*near))) <= within:
                return first, near
    return None


def _may_have_ratio(turn: float, within: float) -> bool:
    """Whether a ratio may be so near to a turn. What is nearer to a number than half of one by the
    square of its denominator is a convergent of the number's continued fraction; and of those that
    the language holds the last alone is so near, as one is no nearer than one by its denominator
    and the sum of that and the next."""
    tangent = abs(tan(turn))
    if not 0.01 <= tangent <= 100:
        return False
    number = rest = min(tangent, 1 / tangent)
    before, below = 0, 1
    while True:
        rest = 1 / rest
        part = int(rest)
        following = part * below + before
        if following > MOST_RATIO:
            break
        before, below, rest = below, following, rest - part or TINY
    above = number * below
    return abs(above - int(above + 0.5)) <= SURELY * within * (1 + number * number) * below


@lru_cache(maxsize=1)
def _small_leans() -> tuple[tuple[Lean, float], ...]:
    """The leans of small ratios, with their turns in radians."""
    ratios = ((p, q) for q in range(1, 40) for p in range(-q, q + 1) if p and gcd(p, q) == 1)
    leans = (_make(Fraction(0), q, p) for p, q in ratios)
    return tuple((each, each.radians()) for each in leans)


def _near_rest(turn: float) -> tuple[int, int] | None:
    """The ratio nearest to a turn; None where that is nearly level or upright."""
    tangent = tan(turn)
    return nearest_ratio(*tangent.as_integer_ratio()) if 0.01 <= abs(tangent) <= 100 else None


def _turn_of(p: int, q: int) -> float:
    """The turn of a ratio, as its lean has it."""
    return _make(Fraction(0), q, p).radians() if abs(p) == q else atan2(p, q)


SQUARE = Lean(Fraction(90))
"""A right angle."""


def _make(degrees: Fraction, ahead: int, left: int) -> Lean:
    divisor = gcd(ahead, left)
    ahead, left = ahead // divisor, left // divisor
    if ahead < 0 or (ahead == 0 and left < 0):
        ahead, left = -ahead, -left
    match (ahead, left):
        case (0, 1):
            degrees, ahead, left = degrees + 90, 1, 0
        case (1, 1):
            degrees, ahead, left = degrees + 45, 1, 0
        case (1, -1):
            degrees, ahead, left = degrees - 45, 1, 0
    if degrees:
        if not 0 <= degrees < 180:
            degrees %= 180
        if left and degrees >= 45:
            return _make(degrees % 45, *_turn_by_eighths(ahead, left, degrees))
    return Lean(degrees, ahead, left)


def _turn_by_eighths(ahead: int, left: int, degrees: Fraction) -> tuple[int, int]:
    """A direction turned by the whole 45 degrees in these degrees; it comes out longer."""
    for _ in range(int(degrees // 45)):
        ahead, left = ahead - left, ahead + left
    return ahead, left
