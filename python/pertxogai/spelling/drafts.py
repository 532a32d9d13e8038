"""A sketch on its way: its elements as they are drawn, and its constraints with exact values and
owners."""
from __future__ import annotations

from collections.abc import Callable, Iterable, Mapping, Sequence
from dataclasses import dataclass, field
from fractions import Fraction
from functools import lru_cache
from math import lcm
from typing import NamedTuple

from pertxogai import language
from pertxogai.language.numbers import nearest_whole
from pertxogai.spelling.facts import Owner
from pertxogai.spelling.linear import Number

PointUm = tuple[Number, Number]
SCALES = (1, 2, 4, 5, 8, 10, 16, 20, 25, 40, 50, 80, 100, 125, 160, 200, 250, 400, 500, 625, 800,
          1000)
ROOM_UM = Fraction(250_000_000)
"""How large a drawing may become, in micrometres: a quarter of what the language holds."""


NO_OTHERS: Mapping[int, Number] = {}
Owners = Callable[[], frozenset[Owner]]
"""Who says something; it is called only where that is asked for."""


def said_by(owners: Iterable[Owner]) -> Owners:
    """Owners that are known."""
    known = frozenset(owners)
    return lambda: known


class Draft(NamedTuple):
    """A constraint, and who says it: `on` where there is neither value nor ratio. `second` is a
    line, or a point for a distance. is_near: whether the ratio is only the one next to the
    angle."""

    first: str
    second: str
    said: Owners
    value_um: Number | None = None
    ratio: tuple[int, int] | None = None
    is_near: bool = False

    def names(self) -> tuple[str, str]:
        """The two elements."""
        return self.first, self.second


class Rounded(NamedTuple):
    """A value that the language can't hold, even on a greater scale, in micrometres, and what was
    told instead."""

    number: int
    exact_um: Number
    told_um: Fraction


Worded = tuple[tuple[language.Constraint, ...], tuple[Rounded, ...]]
"""Constraints of the language, and what of them had to be rounded."""


@dataclass
class Sheet:
    """The elements and constraints so far; points and lines by their names, in micrometres of the
    drawing. told: the constraints of all drafts by scale, once they are told."""

    points: dict[str, PointUm] = field(default_factory=dict)
    lines: dict[str, tuple[PointUm, PointUm]] = field(default_factory=dict)
    drafts: list[Draft] = field(default_factory=list)
    told: dict[int, Worded] = field(default_factory=dict)

    def scale(self, others: Mapping[int, Number] = NO_OTHERS) -> int:
        """How many times larger the sketch is told, so that its values are whole micrometres where
        they can be. others: the values of some drafts, by their places from 0, where they are
        others."""
        values = [others.get(place, each.value_um) for place, each in enumerate(self.drafts)
                  if each.value_um is not None]
        spots = [each for spot in self.points.values() for each in spot]
        room = ROOM_UM / max(1, *values, *spots, -min(0, *spots, *values))
        fitting = [scale for scale in SCALES if scale <= room] or [1]
        parts = lcm(*(value.denominator for value in values))
        return next((scale for scale in fitting if scale % parts == 0), fitting[-1])

    def sketch(self, scale: int) -> tuple[language.Sketch, tuple[Rounded, ...]]:
        """The sketch as values of the language, so many times larger, and the values that had to
        be rounded."""
        elements: list[language.Element] = [
            _point(name, nearest_whole(x * scale), nearest_whole(y * scale))
            for name, (x, y) in self.points.items()]
        elements += [line_between(name, ends, scale) for name, ends in self.lines.items()]
        if scale not in self.told:
            self.told[scale] = _in_the_language(self.drafts, scale)
        constraints, rounded = self.told[scale]
        return language.Sketch(1, tuple(elements), constraints), rounded


def line_between(name: str, ends: tuple[PointUm, PointUm], scale: int) -> language.Line:
    """A line through two drawn places, so many times larger."""
    return _line(name, *(nearest_whole(each * scale) for spot in ends for each in spot))


def _in_the_language(drafts: Sequence[Draft], scale: int) -> Worded:
    """The constraints of drafts, so many times larger, and the values that had to be rounded."""
    rounded = []
    for number, draft in enumerate(drafts, 1):
        if draft.value_um is not None and (draft.value_um * scale).denominator != 1:
            told = Fraction(nearest_whole(draft.value_um * scale), scale)
            rounded.append(Rounded(number, draft.value_um, told))
    return tuple(_constraint(draft, scale) for draft in drafts), tuple(rounded)


def _constraint(draft: Draft, scale: int) -> language.Constraint:
    if draft.ratio is not None:
        return language.Angle(draft.first, draft.second, *draft.ratio)
    if draft.value_um is None:
        return language.On(draft.first, draft.second)
    length_um = max(1, nearest_whole(draft.value_um * scale))
    return language.Distance(draft.first, draft.second, length_um)


@lru_cache(maxsize=8192)
def _point(name: str, x: int, y: int) -> language.Point:
    """A point, with its text where it was written before."""
    return language.Point(name, x, y)


@lru_cache(maxsize=8192)
def _line(name: str, x1: int, y1: int, x2: int, y2: int) -> language.Line:
    """A line through two places; through a place a micrometre aside where they are one."""
    return language.Line(name, x1, y1, x2 + ((x1, y1) == (x2, y2)), y2)
