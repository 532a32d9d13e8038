"""How far the rounding of values moves what is measured.

A length that the language can't hold is told by the nearest that it can, and an angle that is no
ratio by the ratio next to it. Where a drawing hangs on such a value by next to nothing, what is
measured of the rest may move by thousands of times as much. So each is told by the values on either
side, between which the exact one lies, and the rest is asked for again."""
from __future__ import annotations

from collections.abc import Callable, Iterator, Sequence
from dataclasses import replace
from fractions import Fraction

from pertxogai.drawing import Drawing
from pertxogai.drawing.places import NM_PER_UM
from pertxogai.exact import whole_up
from pertxogai.judging.measure.deviation import Deviation, Unit
from pertxogai.language import Angle, Constraint, Distance
from pertxogai.language.numbers import MOST_UM, ratios_beside
from pertxogai.spelling import Spelled

MOST_ROUNDED = 16
"""The most values that are told otherwise; how far more of them move it isn't known."""
PART = Fraction(1, 1000)
"""What is off by a greater part of the drawing's size isn't looked at: no rounding is known that
moves anything as far, and each such look asks the program twice for each rounded value."""
PPB = 10 ** 9
Off = Callable[[Spelled], Deviation | None]
"""How far something is off where a sketch is placed; None where it isn't measured there."""


def most_by_rounding(drawing: Drawing, off: Deviation) -> int:
    """How far something may be off at most so that it is looked at for rounding, in its unit."""
    if off.unit is Unit.PPB:
        return whole_up(PART * PPB)
    spots = [drawing.drawn(ref) for ref in drawing.points()]
    size_um = max((abs(each) for spot in spots for each in (spot.x_um, spot.y_um)), default=0)
    return whole_up(PART * size_um * NM_PER_UM)


def rounded_lines(spelled: Spelled) -> list[int]:
    """The lines of a sketch of which the value was rounded, from 1."""
    return sorted({*(each.number for each in spelled.rounded), *spelled.near})


def moved_by_rounding(spelled: Spelled, lines: Sequence[int], off: Deviation,
                      measured: Off) -> int:
    """By how much the rounding of these lines' values moves at most how far something is off, in
    the unit of that: as much as all of them do, each by itself from the value that is told to those
    beside it. 0 where there are none, and where it isn't known: where they are too many, or one of
    them has no value beside it with which it can be measured, below or above."""
    if len(lines) > MOST_ROUNDED:
        return 0
    moves = [_movement(spelled, number - 1, off, measured) for number in lines]
    return sum(each for each in moves if each is not None) if None not in moves else 0


def _movement(spelled: Spelled, place: int, off: Deviation, measured: Off) -> int | None:
    """By how much the rounding of one value moves it; None where that isn't known."""
    found = [there for each in _told_otherwise(spelled, place)
             if (there := measured(each)) is not None and there.unit is off.unit]
    return max(abs(each.amount - off.amount) for each in found) if len(found) == 2 else None


def _told_otherwise(spelled: Spelled, place: int) -> Iterator[Spelled]:
    """A sketch with the value beside it in one of its lines, by its place from 0."""
    lines = spelled.sketch.constraints
    for line in _beside(lines[place]):
        told = (*lines[:place], line, *lines[place + 1:])
        yield replace(spelled, sketch=replace(spelled.sketch, constraints=told))


def _beside(line: Constraint) -> Iterator[Constraint]:
    """A line with the value below its own, and with the one above, as far as the language has
    them."""
    if isinstance(line, Distance):
        yield from (replace(line, length_um=line.length_um + more) for more in (-1, 1)
                    if 0 < line.length_um + more <= MOST_UM)
    elif isinstance(line, Angle):
        yield from (replace(line, p=p, q=q) for p, q in ratios_beside(line.p, line.q))
