"""How far two directions are off a turn between them."""

from __future__ import annotations

from functools import lru_cache
from math import lcm
from typing import NamedTuple

from pertxogai.drawing import Slope, Turn
from pertxogai.exact import Number, Vector, cross, dot, root_up, square
from pertxogai.judging.measure.circular import Enclosed, cos_sin, exactly

PPB = 10 ** 9
"""Parts of a radian."""


class Line(NamedTuple):
    """A placed line: a place on it, its way, and whether it ends where the way ends; an axis is
    endless."""

    start: Vector
    way: Vector
    ends: bool


class Bend(NamedTuple):
    """How far two lines are off a turn: by the sine of the angle that is too much, of which the
    square is `above` / `below`, and whether the second runs the other way than it should."""

    above: Number
    below: Number
    backward: bool

    def nm(self, first: Line, second: Line) -> int:
        """How far the end of the shorter line lies off the direction, in nanometres; up to
        twice its length where it runs backward."""
        squares = [square(line.way) for line in (first, second) if line.ends]
        return self._amount(min(squares))

    def ppb(self) -> int:
        """The sine in parts per 10^9; from 10^9 to 2 * 10^9 where it runs backward."""
        return self._amount(PPB * PPB)

    def _amount(self, length_square: Number) -> int:
        over = root_up(-(-self.above * length_square // self.below))
        return root_up(4 * length_square) - over if self.backward else over


LOST = Bend(1, 1, False)
"""Of a line whose two ends are one place: it has no direction at all."""


def bend(first: Line, second: Line, turn: Turn) -> Bend:
    """How far the second is off the first, turned by this; as one direction to another."""
    wanted = _direction_of(turn)
    along, aside = dot(first.way, second.way), cross(first.way, second.way)
    squares = square(first.way) * square(second.way) * wanted.square
    if squares == 0:
        return LOST
    low, high = _sum(wanted.cosine, aside, wanted.sine, -along)
    over = max(-low, high)
    ahead = _sum(wanted.cosine, along, wanted.sine, aside)[1] >= 0
    return Bend(over * over, squares * wanted.below ** 2, not ahead)


Ends = tuple[int, int]
"""Two whole numbers between which a number lies."""


class _Wanted(NamedTuple):
    """A direction by its cosine and sine, times `below` times the root of `square`."""

    cosine: Ends
    sine: Ends
    below: int
    square: int

    @staticmethod
    def of(cosine: Enclosed, sine: Enclosed, square: int) -> _Wanted:
        """That of a direction of which the cosine and the sine, times the root of `square`, are
        enclosed by fractions."""
        below = lcm(*(end.denominator for end in (*cosine, *sine)))
        return _Wanted(_whole(cosine, below), _whole(sine, below), below, square)


def _whole(number: Enclosed, below: int) -> Ends:
    """The ends of a number, times a common multiple of their denominators."""
    return int(number.low * below), int(number.high * below)


def _sum(one: Ends, times: Number, other: Ends, by: Number) -> tuple[Number, Number]:
    """Between which numbers the sum of two numbers lies, each times one that is known."""
    first = one[0] * times, one[1] * times
    second = other[0] * by, other[1] * by
    return min(first) + min(second), max(first) + max(second)


@lru_cache(maxsize=1024)
def _direction_of(turn: Turn) -> _Wanted:
    """The direction of the x axis, turned. Whole multiples of 45 degrees, which alone have
    fractions for tangents, are exact."""
    if isinstance(turn, Slope):
        # q isn't negative: the turn is to within a right angle, then half round if backward.
        sign = -1 if turn.backward else 1
        return _Wanted.of(exactly(sign * turn.q), exactly(sign * turn.p), turn.p ** 2 + turn.q ** 2)
    if turn.value % 90 == 45:
        return _Wanted.of(exactly(1 if turn.value % 360 in (45, 315) else -1),
                          exactly(1 if turn.value % 360 < 180 else -1), 2)
    return _Wanted.of(*cos_sin(turn.value), 1)


def bend_of_lines(first: Line, second: Line, right_angle: bool) -> Bend:
    """How far two lines are off being parallel, or at a right angle, either way round."""
    squares = square(first.way) * square(second.way)
    if squares == 0:
        return LOST
    over = dot(first.way, second.way) if right_angle else cross(first.way, second.way)
    return Bend(over * over, squares, False)
