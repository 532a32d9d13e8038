"""What the effects of single dimensions on a check add up to, and how far the placed cases lie off
that: of a distance of two points by the way from one to the other, of each other check by what it
measures. All of it is reckoned, and none of it placed."""
from __future__ import annotations

from collections.abc import Iterator, Mapping, Sequence
from dataclasses import dataclass
from math import cos, hypot, pi, sin

from pertxogai.fitting.effects import Effect, Reading
from pertxogai.fitting.gauges import Way
from pertxogai.fitting.offs import Offs
from pertxogai.fitting.placing import Case

DIRECTIONS = 720
"""The number of directions along which it is reckoned how far apart two points may come: what lies
between two of them is at most a hundred-thousandth more."""


@dataclass(frozen=True)
class Reach:
    """From the least to the greatest that a check may measure, in millionths, as it is reckoned."""

    least: float
    greatest: float


class Sums:
    """The sums of the effects on one check, by its place from 0. base: what the effects are told
    from."""

    def __init__(self, number: int, base: Case, effects: Sequence[Effect]) -> None:
        self._number, self._effects = number, effects
        self._base, self._way = base.values[number], base.ways[number]

    def rest(self, offs: Offs, case: Case) -> int | None:
        """How much more a case measures than the sum; None where a dimension is off by what wasn't
        tried alone."""
        single, base = self._single(offs), self._base
        if single is None:
            return None
        return case.values[self._number] - base - sum(each.value - base for each in single)

    def reach(self, cases: Mapping[Offs, Case], times: int) -> Reach:
        """From the least to the greatest that the effects add up to, and besides that number of
        times as much as the cases are off the sums at most."""
        if self._way is not None:
            return self._reach_of_way(self._way, cases, times)
        rests = [0, *(rest for each in cases.items() if (rest := self.rest(*each)) is not None)]
        base = self._base
        return Reach(base + sum(each.least - base for each in self._effects) + times * min(rests),
                     base + sum(each.greatest - base for each in self._effects)
                     + times * max(rests))

    def furthest(self) -> Offs | None:
        """Of the distance of two points the case in which by the sums they lie furthest apart; None
        of what isn't one."""
        if self._way is None:
            return None
        way = max(_directions(), key=self._along)
        return Offs(max(each.states(), key=lambda reading: _along(reading.way, way)).off
                    for each in self._effects)

    def _single(self, offs: Offs) -> list[Reading] | None:
        found = [each.at(off) for each, off in zip(self._effects, offs)]
        known = [each for each in found if each is not None]
        return known if len(known) == len(found) else None

    def _along(self, way: tuple[float, float]) -> float:
        """How far by the sums the second point may lie from the first along a direction."""
        given = _along(self._way, way)
        return given + sum(max(_along(reading.way, way) for reading in each.readings) - given
                           for each in self._effects)

    def _reach_of_way(self, given: Way, cases: Mapping[Offs, Case], times: int) -> Reach:
        off = times * max((self._off_sum(given, *each) for each in cases.items()), default=0.0)
        ways = list(map(self._along, _directions()))
        return Reach(max(0.0, -min(ways) - off), max(ways) + off)

    def _off_sum(self, given: Way, offs: Offs, case: Case) -> float:
        """How far a case's way ends from the sum of the single ones; 0 where that isn't known."""
        single, way = self._single(offs), case.ways[self._number]
        ways = [each.way for each in single or () if each.way is not None]
        if single is None or way is None:
            return 0.0
        return hypot(*(way[axis] - given[axis] - sum(each[axis] - given[axis] for each in ways)
                       for axis in (0, 1)))


def _directions() -> Iterator[tuple[float, float]]:
    """Directions all around, of length 1."""
    for place in range(DIRECTIONS):
        turn = 2 * pi * place / DIRECTIONS
        yield cos(turn), sin(turn)


def _along(way: Way | None, direction: tuple[float, float]) -> float:
    """How far a way goes along a direction."""
    assert way is not None
    return way[0] * direction[0] + way[1] * direction[1]
