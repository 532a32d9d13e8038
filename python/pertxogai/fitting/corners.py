"""The worst case of what a gauge measures: the corners of the tolerances at which it is least and
greatest, or what lies between them where it turns round, each placed by the program and measured
there."""
from __future__ import annotations

from collections.abc import Iterator, Mapping, Sequence
from dataclasses import dataclass
from fractions import Fraction
from itertools import product
from random import Random

from pertxogai.fitting.effects import MOST_TURNS, Effect, turning_at
from pertxogai.fitting.gauges import Way
from pertxogai.fitting.offs import Offs
from pertxogai.fitting.placing import Case, Placer
from pertxogai.fitting.sums import Sums

MOST_TOGETHER = 3
"""Of the dimensions of which it isn't known at which end a check is worst, all ends of at most this
number are tried together: of those that move it most."""
MOST_BEGUN = 3
"""From this number of corners, the worst, the search goes on."""
MOST_ROUNDS = 3
"""All of these dimensions are tried one by one at most this number of times."""
MOST_TRIED = 400
"""At most this number of corners is tried one by one, for the least of a check and for its
greatest."""
TIMES = 4
"""What moves a check less than this number of times as much as corners are off the sums of the
effects may change its sign there."""
MANY = 20
"""Of more dimensions than this number those that may change their sign so are first tried one by
one, a little within the worst corners."""
WITHIN = Fraction(1, 8)
"""So much of its tolerance a dimension lies within then."""
PART = 4
"""A dimension is sure where that makes the check better by no less than this part of what it does
by itself."""
NEXT = 2
"""Once a case changed, what is tried from there is expected of this number of dimensions at most:
it may change again."""
SAMPLES = 8
"""This number of corners is placed besides, taken at random: the same in each run."""
SEED = 2768


@dataclass(frozen=True)
class Worst:
    """The least and the greatest measured value, in millionths of a millimetre or a degree, and
    the deviations of the dimensions there. turning: the dimensions, by their places from 0, in
    which the check isn't monotone. below, above: how far the calculated range goes beyond what was
    measured; 0 if the check is monotone and each constraint is met but for rounding."""

    least: int
    greatest: int
    at_least: Offs
    at_greatest: Offs
    turning: frozenset[int] = frozenset()
    below: int = 0
    above: int = 0

    @staticmethod
    def of(gauges: Sequence[Worst]) -> Worst:
        """The worst case of a check that is measured in several places: the least and the greatest
        value of all."""
        low = min(gauges, key=lambda each: each.least)
        high = max(gauges, key=lambda each: each.greatest)
        below = low.least - min(each.least - each.below for each in gauges)
        above = max(each.greatest + each.above for each in gauges) - high.greatest
        turning = frozenset[int]().union(*(each.turning for each in gauges))
        return Worst(low.least, high.greatest, low.at_least, high.at_greatest, turning, below,
                     above)

    @property
    def is_one_way(self) -> bool:
        """Whether the check was monotone in each dimension wherever that was tried."""
        return not self.turning


class Corners:
    """The corners of what one gauge measures. number: the gauge's place, from 0."""

    def __init__(self, placer: Placer, effects: Sequence[Effect], number: int) -> None:
        self._placer, self._effects, self._number = placer, effects, number
        self._noise, self._base = placer.noise(number), placer.base()
        self._sums = Sums(number, self._base, effects)

    def worst(self) -> Worst:
        """Raises Unplaced and ProgramError."""
        starts = {side: Offs(each.end(side) for each in self._effects) for side in (-1, 1)}
        unsure = self._unsure(starts)
        (at_least, low), (at_greatest, high) = (
            self._extreme(starts[side], unsure, side) for side in (-1, 1))
        turning = low | high | self._turning() | self._both_ways((at_least, at_greatest), unsure)
        least, greatest = self._at(at_least), self._at(at_greatest)
        below, above = self._beyond(least, greatest, len(unsure)) if turning else (0, 0)
        loose = self._placer.loose_nm
        return Worst(least, greatest, at_least, at_greatest, turning, below + loose, above + loose)

    def _case(self, offs: Offs) -> Case:
        """A case; where it isn't placed, the one in which what doesn't move the check is held."""
        known = self._placer.cases.get(offs)
        if known is not None:
            return known
        return self._placer.case(offs if self._placer.is_placed(offs) else self._held(offs))

    def _held(self, offs: Offs) -> Offs:
        """A case with what doesn't move the check as at the base."""
        return Offs(off if each.gives() > self._noise else each.base.off
                    for off, each in zip(offs, self._effects))

    def _at(self, offs: Offs) -> int:
        """What is measured in a case."""
        return self._case(offs).values[self._number]

    def _unsure(self, starts: Mapping[int, Offs]) -> list[int]:
        """The dimensions whose effect may have another sign at a corner than at the base: all in
        which the check turns, and those that move it less than a few times as much as corners are
        off the sums of the effects, or would if it changed all the way as at that end where it
        changes least. Those that move it most come first. starts: the corner that is worst by the
        effects, by its side."""
        bend = self._bend([*starts.values(), *_at_random(self._effects, SAMPLES)])
        gives = {place: each.gives() for place, each in enumerate(self._effects)
                 if len(each.readings) > 1}
        unsure = [place for place in gives if self._effects[place].turn() is not None]
        if bend > self._noise:
            still = [place for place in gives
                     if gives[place] <= self._noise and place not in unsure]
            unsure += self._moving(starts, still)
            little = [place for place in gives if self._noise < gives[place]
                      and self._effects[place].least_gives() <= TIMES * bend
                      and place not in unsure]
            unsure += little if len(gives) <= MANY else self._doubtful(starts, little)
        return sorted(unsure, key=lambda place: -gives[place])

    def _bend(self, corners: Sequence[Offs]) -> int:
        """How far corners are off the sums of the effects at most."""
        self._placer.expect(corners)
        rests = (self._sums.rest(offs, self._case(offs)) for offs in corners)
        return max((abs(rest) for rest in rests if rest is not None), default=0)

    def _doubtful(self, starts: Mapping[int, Offs], places: Sequence[int]) -> list[int]:
        """Those of the dimensions of which one, a little within at one of the worst corners,
        doesn't make the check better as it does by itself, or isn't placed there."""
        self._placer.expect(self._a_little_within(start, place)
                            for start in starts.values() for place in places)
        return [place for place in places
                if any(self._is_doubtful(side, start, place) for side, start in starts.items())]

    def _is_doubtful(self, side: int, start: Offs, place: int) -> bool:
        """The same of one dimension at one of these corners."""
        within, spread = self._a_little_within(start, place), abs(self._effects[place].spread)
        return (not self._placer.is_placed(within)
                or -PART * self._gain(start, within, side) < spread * self._part_within(place))

    def _a_little_within(self, start: Offs, place: int) -> Offs:
        """A corner with one dimension a little within."""
        way = self._other_end(place, start[place]) - start[place]
        return start.replaced({place: start[place] + way * self._part_within(place)})

    def _part_within(self, place: int) -> Fraction:
        """What part of its tolerance a dimension is put within: all where a little wouldn't be more
        than rounding."""
        spread = abs(self._effects[place].spread)
        return WITHIN if spread * WITHIN > PART * self._noise else Fraction(1)

    def _moving(self, starts: Mapping[int, Offs], still: Sequence[int]) -> Sequence[int]:
        """Those of the dimensions that don't move the check by themselves which do at one of the
        worst corners; all where they do so only together."""
        corners = starts.values()
        if not any(self._move_together(corner, still) for corner in corners):
            return []
        self._placer.expect(case for corner in corners for place in still
                            for case in self._others(corner, [place]))
        alone = [place for place in still
                 if any(self._move_together(corner, [place]) for corner in corners)]
        return alone or still

    def _move_together(self, corner: Offs, places: Sequence[int]) -> bool:
        """Whether dimensions at their other ends move the check from a corner."""
        value, others = self._at(corner), self._others(corner, places)
        self._placer.expect(others)
        return any(abs(self._at(other) - value) > self._noise for other in others)

    def _others(self, corner: Offs, places: Sequence[int]) -> list[Offs]:
        """A few cases with dimensions at their other ends than in a corner: each of them is there
        in one, and each two of them are at unlike ends in one."""
        numbered = list(enumerate(places, start=1))
        return [corner.replaced({place: self._other_end(place, corner[place])
                               for index, place in numbered if index >> bit & 1})
                for bit in range(len(places).bit_length())]

    def _extreme(self, start: Offs, unsure: Sequence[int],
                 side: int) -> tuple[Offs, frozenset[int]]:
        """The case in which the check times a side is greatest, and the dimensions whose effect
        changed its sign on the way. Where none of the unsure makes the start worse, and no case is
        worse that is known, that is the start."""
        best = self._within(self._worst_known(start, side), unsure, side)
        if self._gain(start, best, side) <= self._noise and not self._turning():
            return start, frozenset()
        best, left = self._worst_known(best, side), MOST_TRIED
        begins = list(self._begins(start, unsure))
        self._placer.expect(begins)
        begins.sort(key=lambda offs: -side * self._at(offs))
        for begin in (best, *begins[:MOST_BEGUN]):
            offs, left = self._climbed(begin, unsure, side, left)
            best = max(best, offs, key=lambda case: side * self._at(case))
        best = self._within(best, unsure, side)
        is_worse = self._gain(start, best, side) > self._noise
        return best, self._changed(start, best, side) if is_worse else frozenset()

    def _gain(self, start: Offs, other: Offs, side: int) -> int:
        """How much worse another case is."""
        return side * (self._at(other) - self._at(start))

    def _worst_known(self, start: Offs, side: int) -> Offs:
        """The worst case that is known; the start where none is worse."""
        worst, case = max(self._placer.within.items(),
                          key=lambda known: side * known[1].values[self._number])
        return worst if side * case.values[self._number] > side * self._at(start) else start

    def _begins(self, start: Offs, unsure: Sequence[int]) -> Iterator[Offs]:
        """The corners from which the search goes on."""
        yield from self._together(start, unsure)
        furthest = self._sums.furthest()
        if furthest is not None:
            yield furthest

    def _within(self, offs: Offs, unsure: Sequence[int], side: int) -> Offs:
        """A case from which it is no worse to put one of the unsure between its ends: within, and
        where by a parabola the check turns round."""
        for _ in range(MOST_ROUNDS):
            first, ahead = offs, len(unsure)
            for number in range(len(unsure)):
                if number == 0 or offs is not first:
                    self._expect_ends(offs, unsure[number:number + ahead])
                before, offs = offs, self._best_within(offs, unsure[number:number + 2], side)
                ahead = NEXT if offs is before else 1
            if abs(self._at(offs) - self._at(first)) <= self._noise:
                break
        return offs

    def _expect_ends(self, offs: Offs, places: Sequence[int]) -> None:
        """Says that a case is asked for next with each of some dimensions at its ends."""
        self._placer.expect(case for place in places for case in self._at_ends(offs, place))

    def _best_within(self, offs: Offs, places: Sequence[int], side: int) -> Offs:
        """The worst case of those in which the first of some unsure lies otherwise. Where parabolas
        say where, that is mostly the worst, and the next one is tried from there."""
        place = places[0]
        tried = [*self._at_ends(offs, place), *self._at_steps(offs, place)]
        for _ in range(MOST_TURNS):
            where = turning_at([(case[place], self._at(case)) for case in tried], self._noise)
            if where is None:
                break
            turned = offs.replaced({place: where})
            self._expect_ends(turned, places[1:])
            tried += self._around(turned, place)
        return max([offs, *tried], key=lambda case: side * self._at(case))

    def _at_ends(self, offs: Offs, place: int) -> list[Offs]:
        """A case with one dimension at its ends, and within."""
        return [offs.replaced({place: off}) for off in self._effects[place].dimension.ends]

    def _at_steps(self, offs: Offs, place: int) -> list[Offs]:
        """A case with one dimension, an angle of many degrees, at steps between its ends."""
        return [case for off in self._effects[place].dimension.steps
                for case in self._around(offs.replaced({place: off}), place)]

    def _around(self, offs: Offs, place: int) -> list[Offs]:
        """A case between the ends of a dimension, or those beside it; none where it can't be placed
        there."""
        around = self._placer.around
        return around(offs, place) or around(self._held(offs), place)

    def _together(self, start: Offs, unsure: Sequence[int]) -> Iterator[Offs]:
        """Corners with all ends of the first of the unsure, and with the other end of the rest."""
        most, rest = unsure[:MOST_TOGETHER], unsure[MOST_TOGETHER:]
        for ends in product(*map(self._states, most)) if most else ():
            yield start.replaced(dict(zip(most, ends)))
        if rest:
            yield start.replaced({place: self._other_end(place, start[place]) for place in rest})

    def _climbed(self, offs: Offs, unsure: Sequence[int], side: int,
                 left: int) -> tuple[Offs, int]:
        """A corner from which no other end of one of the unsure makes it worse, and how many may
        still be tried of those that are left."""
        value = side * self._at(offs)
        for _ in range(MOST_ROUNDS):
            before = value
            for place, state in ((place, it) for place in unsure for it in self._states(place)):
                other, left = offs.replaced({place: state}), left - 1
                there = side * self._at(other) if left > 0 else value
                if there > value:
                    offs, value = other, there
            if value <= before + self._noise:
                break
        return offs, left

    def _changed(self, start: Offs, best: Offs, side: int) -> frozenset[int]:
        """The dimensions that lie otherwise in the worst case than at the start, and move the
        check there; where none does by itself, all of them."""
        other = [place for place, (one, two) in enumerate(zip(start, best)) if one != two]
        value = self._at(best)
        moving = [place for place in other
                  if abs(self._at(best.replaced({place: start[place]})) - value) > self._noise]
        return frozenset(moving or other)

    def _both_ways(self, corners: Sequence[Offs], unsure: Sequence[int]) -> frozenset[int]:
        """The dimensions that don't move the check by themselves, and lie at the same end where it
        is least and where it is greatest: more of them is less at the one, and more at the
        other."""
        return frozenset(place for place in unsure if self._effects[place].gives() <= self._noise
                         and len({corner[place] for corner in corners}) == 1
                         and all(self._move_together(corner, [place]) for corner in corners))

    def _turning(self) -> frozenset[int]:
        """The dimensions in which the check turns by itself; and where it is the distance of two
        points that come past each other, all that move it."""
        turning = {place for place, each in enumerate(self._effects) if each.turn() is not None}
        if self._comes_past():
            turning.update(place for place, each in enumerate(self._effects)
                           if each.gives() > self._noise)
        return frozenset(turning)

    def _comes_past(self) -> bool:
        """Whether the way between two points runs backwards in a case against the given one, or is
        none there."""
        given = self._base.ways[self._number]
        if given is None:
            return False
        return any(_dot(given, way) <= 0 for case in self._placer.within.values()
                   if (way := case.ways[self._number]) is not None)

    def _beyond(self, least: int, greatest: int, unsure: int) -> tuple[int, int]:
        """How much less and more the check may be, where it isn't monotone, than what was
        measured."""
        reach = self._sums.reach(self._placer.cases, 1 if unsure <= MOST_TOGETHER else 2)
        floor = 0.0 if self._base.ways[self._number] is not None and self._comes_past() else None
        low = reach.least if floor is None else floor
        below, above = round(least - low), round(reach.greatest - greatest)
        return below if below > self._noise else 0, above if above > self._noise else 0

    def _states(self, place: int) -> list[Fraction]:
        return [each.off for each in self._effects[place].states()]

    def _other_end(self, place: int, off: Fraction) -> Fraction:
        ends = self._states(place)
        return ends[0] if off == ends[-1] else ends[-1]


def _dot(one: Way, other: Way) -> int:
    return one[0] * other[0] + one[1] * other[1]


def _at_random(effects: Sequence[Effect], count: int) -> Iterator[Offs]:
    """Corners at random: each dimension at an end."""
    random = Random(SEED)
    for _ in range(count):
        yield Offs(random.choice((each.readings[0], each.readings[-1])).off for each in effects)
