"""How much each dimension moves each check: measured with it at both ends of its tolerance and
within, all others as they are given."""
from __future__ import annotations

from collections.abc import Iterable, Sequence
from contextlib import suppress
from dataclasses import dataclass
from fractions import Fraction
from functools import cached_property

from pertxogai.cached import cached_on
from pertxogai.fitting.gauges import Way
from pertxogai.fitting.placing import Case, Placer, Unplaced
from pertxogai.fitting.rounding import NOISE
from pertxogai.fitting.toleranced import MILLIONTHS, Toleranced

NEAR = Fraction(1, 16)
"""A dimension with which nothing is placed at an end of its tolerance is tried at this part too."""
ROUNDED = 2
"""Millionths by which a change of what is measured by `NOISE` may be rounded."""
MOST_TURNS = 4
"""Where a check turns round is looked for at most this number of times, nearer each time."""
MOST_DIGITS = 9
"""A sensitivity has at most this number of digits behind the point."""


@dataclass(frozen=True)
class Reading:
    """What a check measures, in millionths, where one dimension is off, in micrometres or degrees;
    way: the way that it measures, where it is the distance of two points."""

    off: Fraction
    value: int
    way: Way | None


@dataclass(frozen=True)
class Effect:
    """What one dimension does to one check. readings: from its least to its greatest, the least off
    first; of one that is held, that one alone. base: with all others as they are given, or as
    nearly as their tolerances allow. noise: what of a change is rounding, in millionths."""

    dimension: Toleranced
    readings: tuple[Reading, ...]
    base: Reading
    noise: int

    @property
    def spread(self) -> int:
        """By how much the check changes over the tolerance, with its sign."""
        return self.readings[-1].value - self.readings[0].value

    @property
    def least(self) -> int:
        """The least that was measured."""
        return min(each.value for each in self.readings)

    @property
    def greatest(self) -> int:
        """The greatest that was measured."""
        return max(each.value for each in self.readings)

    @cached_on
    def gives(self) -> int:
        """How much of it the dimension gives to either side: half of the greatest change."""
        return (self.greatest - self.least + 1) // 2

    def middle(self) -> Fraction:
        """What the check measures in the middle of that change."""
        return Fraction(self.greatest + self.least, 2)

    def per_unit(self) -> float | None:
        """The change of the check, in millimetres or degrees, for each millimetre or degree, to as
        many digits as the rounding of places leaves; None where it turns round."""
        if self.turn() is not None:
            return None
        unit = Fraction(1) if self.dimension.is_angle else Fraction(1, 1000)
        width = self.dimension.width() * unit * MILLIONTHS
        rounding = Fraction(ROUNDED * self.noise, NOISE) / width
        digits = next((each for each in range(MOST_DIGITS, 0, -1)
                       if rounding <= Fraction(1, 2 * 10 ** each)), 0)
        return round(float(self.spread / width), digits)

    def at(self, off: Fraction) -> Reading | None:
        """What was measured with the dimension so far off; None where it wasn't."""
        return self._by_off.get(off)

    @cached_property
    def _by_off(self) -> dict[Fraction, Reading]:
        """The readings, by how far off the dimension is: as all others are given before others."""
        return {each.off: each for each in (*reversed(self.readings), self.base)}

    @cached_on
    def turn(self) -> Reading | None:
        """Where between the ends the check is beyond what it is at both; None where it isn't."""
        if len(self.readings) < 3:
            return None
        first, *within, last = self.readings
        low, high = sorted((first.value, last.value))
        most = max(within, key=lambda each: max(low - each.value, each.value - high))
        return most if not low - self.noise <= most.value <= high + self.noise else None

    @cached_on
    def least_gives(self) -> int:
        """How much of it the dimension would give if the check changed all the way as it does at
        that end where it changes least, by the parabola through the three readings there."""
        known = sorted({each.off: each.value for each in self.readings}.items())
        if len(known) < 3:
            return self.gives()
        flattest = min(abs(_parabola(end)[0]) for end in (known[:3], known[:-4:-1]))
        return min(self.gives(), round(flattest * self.dimension.width() / 2))

    @cached_on
    def states(self) -> tuple[Reading, ...]:
        """Where the check may be worst: both ends, and where it turns."""
        turn = self.turn()
        return tuple(dict.fromkeys([self.readings[0], *([turn] if turn else []),
                                    self.readings[-1]]))

    def end(self, side: int) -> Fraction:
        """How far off the dimension is where the check times a side is greatest by it alone."""
        return max(self.states(), key=lambda each: (side * each.value, each.off)).off


def effects(placer: Placer, dimensions: Sequence[Toleranced],
            number: int) -> tuple[Effect, ...]:
    """What each dimension does to the check of that place, from 0. One that can't be placed at an
    end of its tolerance is held as it is given where it doesn't move the check wherever it can be
    placed. Raises Unplaced where it does, and ProgramError."""
    base = placer.base()
    placer.expect(placer.offs_alone(place, off) for place, dimension in enumerate(dimensions)
                  for off in (*dimension.ends, *dimension.steps))
    return tuple(_effect(_One(placer, place, number), dimension,
                         _reading(dimension.base, base, number))
                 for place, dimension in enumerate(dimensions))


@dataclass(frozen=True)
class _One:
    """One dimension and one check, by their places from 0."""

    placer: Placer
    place: int
    number: int

    @property
    def noise(self) -> int:
        """What of a change of the check is rounding."""
        return self.placer.noise(self.number)

    def reading(self, off: Fraction) -> Reading:
        """What the check measures with the dimension so far off. Raises Unplaced."""
        return _reading(off, self.placer.alone(self.place, off), self.number)

    def readings_around(self, off: Fraction) -> list[Reading]:
        """The same, or a little less and a little more off, where it can't be placed. Raises
        Unplaced where it can't be placed there either."""
        around = self.placer.around(self.placer.offs_alone(self.place, off), self.place)
        return [self.reading(offs[self.place]) for offs in around] or [self.reading(off)]


def _effect(one: _One, dimension: Toleranced, base: Reading) -> Effect:
    three = dimension.ends
    try:
        readings = [one.reading(off) for off in three]
    except Unplaced:
        near = (base.off + (off - base.off) * NEAR for off in three)
        if _moves(one, [*three, *near], base):
            raise
        return Effect(dimension, (base,), base, one.noise)
    readings += [each for off in dimension.steps for each in one.readings_around(off)]
    for _ in range(MOST_TURNS):
        where = turning_at([(each.off, each.value) for each in readings], one.noise)
        if where is None:
            break
        readings += one.readings_around(where)
    return Effect(dimension, tuple(sorted(readings, key=lambda each: each.off)), base, one.noise)


def _moves(one: _One, offs: Iterable[Fraction], base: Reading) -> bool:
    """Whether a dimension moves the check where it can be placed, or can be placed nowhere else."""
    found = []
    for off in offs:
        with suppress(Unplaced):
            found.append(one.reading(off))
    others = [each.value for each in found if each.off != base.off]
    return not others or any(abs(value - base.value) > one.noise for value in others)


def _reading(off: Fraction, case: Case, number: int) -> Reading:
    return Reading(off, case.values[number], case.ways[number])


def turning_at(readings: Iterable[tuple[Fraction, int]], noise: int) -> Fraction | None:
    """Where between the ends a check may turn round, how far off, by parabolas through each three
    neighbours of some readings, each how far off that is and what was measured; None where it goes
    one way, or where it was read already, but for rounding."""
    known = sorted(dict(readings).items())
    turns = filter(None, map(_turn, zip(known, known[1:], known[2:])))
    gain, where = max(turns, default=(Fraction(0), Fraction(0)))
    return where if gain > noise else None


def _turn(three: Sequence[tuple[Fraction, int]]) -> tuple[Fraction, Fraction] | None:
    """By how much a parabola through three readings goes beyond the nearest of them where it turns
    round, and where that is; None where it goes one way."""
    (low, _), (inner, _), (high, _) = three
    first, last, bend = _parabola(three)
    if first * last >= 0 or not bend:
        return None
    where = Fraction(round((low - first / (2 * bend)) * 1000), 1000)
    return abs(bend) * min(abs(where - off) for off in (low, inner, high)) ** 2, where


def _parabola(three: Sequence[tuple[Fraction, int]]) -> tuple[Fraction, Fraction, Fraction]:
    """Of the parabola through three readings the slopes at the first and the last, and half of how
    its slope changes."""
    (first, at_first), (inner, within), (last, at_last) = three
    begin = Fraction(within - at_first) / (inner - first)
    end = Fraction(at_last - within) / (last - inner)
    bend = (end - begin) / (last - first)
    return begin - bend * (inner - first), end + bend * (last - inner), bend
