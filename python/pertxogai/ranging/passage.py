"""Whether something crosses on the way from one placement to another, by numbers.

Some placements on the way are known. Each distance is taken to go between them as a parabola at
most; where that leaves a straight line between two things, or one within the other, all the way,
they don't cross."""
from __future__ import annotations

from collections.abc import Iterator, Sequence
from dataclasses import dataclass
from typing import TypeAlias

import numpy as np
from numpy.typing import NDArray

from pertxogai.judging.rims import TOUCHING_NM
from pertxogai.ranging.things import Array, Indices, Placement, Things

Bools: TypeAlias = NDArray[np.bool_]

ROUNDING_NM = 50
"""Placed numbers are off by less, so that this much of a bend is none."""
SAFETY = 2
"""A bend counts for so many times of what is seen of it."""


@dataclass(frozen=True)
class Passage:
    """Placements on the way from the first to the last. shares: how far along each lies, from 0
    to 1. The first axis of all arrays is that of the placements."""

    things: Things
    shares: Array
    ends: Array
    radius: Array
    bulge: Array
    runs: Array

    @staticmethod
    def of(things: Things, numbers: Sequence[int], placements: Sequence[Placement]) -> Passage:
        """The way through some placements with these numbers, in their order."""
        first, last = numbers[0], numbers[-1]
        shares = np.array([(each - first) / (last - first) for each in numbers])
        return Passage(things, shares, np.stack([each.ends for each in placements]),
                       np.stack([each.radius for each in placements]),
                       np.stack([each.bulge for each in placements]),
                       np.stack([each.runs for each in placements]))

    def is_clear(self) -> bool:
        """Whether nothing crosses that is drawn apart, nothing turns about, and no lines through
        one point come to be one. Two placements alone don't tell how things move."""
        if len(self.shares) < 3:
            return False
        with np.errstate(invalid="ignore"):
            return bool(self._all_run_on() and self._all_stay_apart())

    def _all_run_on(self) -> bool:
        runs = self.runs * np.where(self.runs.sum(axis=0) < 0, -1.0, 1.0)
        is_straight = (np.abs(runs) <= TOUCHING_NM).all(axis=0)
        return bool((self._keeps(runs, touch=0) | is_straight).all())

    def _all_stay_apart(self) -> bool:
        pairs = self.things.pairs
        if not pairs.size:
            return True
        first, second = self._pieces_of(pairs[~self._boxes_stay_apart(pairs)])
        for stay in (self._within, self._parted, self._rigid, self._touching):
            is_open = ~stay(first, second)
            first, second = first[is_open], second[is_open]
        return not first.size

    def _keeps(self, values: Array, touch: int = TOUCHING_NM) -> Bools:
        """Which values stay all the way above what is a touch."""
        first, last = values[0] + touch, values[-1] + touch
        low, high = np.maximum(first, 0), np.maximum(last, 0)
        keeps: Bools = ((np.minimum(first, last) >= -min(touch, ROUNDING_NM))
                        & (np.sqrt(low) + np.sqrt(high) >= 2 * np.sqrt(self._bends(values))))
        return keeps

    def _bends(self, values: Array) -> Array:
        """How far each value may fall, half way, below the straight way from the first to the last:
        as the parabola through these and that between which bends it most."""
        first, last = values[0], values[-1]
        share = self.shares[1:-1].reshape(-1, *[1] * first.ndim)
        off = first + (last - first) * share - values[1:-1]
        bent = np.maximum(off - ROUNDING_NM, 0) / (4 * share * (1 - share))
        found: Array = SAFETY * bent.max(axis=0, initial=0)
        return found

    def _boxes_stay_apart(self, pairs: Indices) -> Bools:
        """Of which pairs the things stay apart in x, or in y."""
        reach = (self.radius + self.bulge)[:, :, None, None]
        least, most = self._floors(self.ends - reach), -self._floors(-self.ends - reach)
        one, other = pairs[:, 0], pairs[:, 1]
        beside = [least[:, other] - most[:, one], least[:, one] - most[:, other]]
        found: Bools = (np.concatenate(beside, axis=2) >= -TOUCHING_NM).all(axis=0).any(axis=1)
        return found

    def _floors(self, values: Array) -> Array:
        """Of each thing a floor at the first placement and at the last: on the straight way from
        one to the other all of its values stay above."""
        starts = self.things.starts()
        floors: Array = np.minimum.reduceat(values[[0, -1]].min(axis=2), starts, axis=1)
        beneath = np.repeat(floors, self.things.counts, axis=1)[:, :, None]
        falls = _falls(values[0] - beneath[0], values[-1] - beneath[1], self._bends(values))
        found: Array = floors - np.maximum.reduceat(falls.max(axis=1), starts, axis=0)
        return found

    def _pieces_of(self, pairs: Indices) -> tuple[Indices, Indices]:
        """The pieces of pairs of things, each of one with each of the other."""
        starts, counts = self.things.starts(), self.things.counts
        pieces = [np.arange(start, start + count) for start, count in zip(starts, counts)]
        grids = [np.meshgrid(pieces[one], pieces[other]) for one, other in pairs]
        if not grids:
            return np.zeros(0, np.intp), np.zeros(0, np.intp)
        first, second = (np.concatenate([grid[which].ravel() for grid in grids])
                         for which in (0, 1))
        return first, second

    def _room(self, first: Indices, second: Indices) -> Array:
        """How far two pieces reach beyond their ends."""
        reach = self.radius + self.bulge
        found: Array = reach[:, first] + reach[:, second]
        return found

    def _parted(self, first: Indices, second: Indices) -> Bools:
        """Between which pieces one straight line stays."""
        found = np.zeros(first.size, np.bool_)
        for axis in self._axes(first, second):
            left = np.flatnonzero(~found)
            if left.size:
                gaps = self._gaps(first[left], second[left], axis[left])
                found[left] = self._keeps(gaps).all(axis=1)
        return found

    def _gaps(self, first: Indices, second: Indices, axis: Array) -> Array:
        """By how much each end of the second pieces lies beyond each of the first ones, along an
        axis: four for each two."""
        one = np.einsum("skei,ki->ske", self.ends[:, first], axis)
        other = np.einsum("skei,ki->ske", self.ends[:, second], axis)
        between = other[:, :, :, None] - one[:, :, None, :]
        room = self._room(first, second)[:, :, None]
        found: Array = between.reshape(*between.shape[:2], 4) - room
        return found

    def _axes(self, first: Indices, second: Indices) -> Iterator[Array]:
        """Directions from first pieces to second ones along which they may be apart."""
        for place in (len(self.shares) // 2, 0, -1):
            yield from _axes_of(self.ends[place, first], self.ends[place, second])

    def _within(self, first: Indices, second: Indices) -> Bools:
        """Which pieces stay within a circle that the other is."""
        found: Bools = self._holds(first, second) | self._holds(second, first)
        return found

    def _holds(self, outer: Indices, inner: Indices) -> Bools:
        spaces = self._spaces(outer, inner)
        found: Bools = self._keeps(spaces).all(axis=1) & (self.radius[0, outer] > 0)
        return found

    def _spaces(self, outer: Indices, inner: Indices) -> Array:
        """How far the ends of inner pieces stay from a circle round them."""
        ways = self.ends[:, inner] - self.ends[:, outer, :1]
        room = self.radius[:, outer] - self.radius[:, inner] - self.bulge[:, inner]
        found: Array = room[:, :, None] - np.linalg.norm(ways, axis=3)
        return found

    def _rigid(self, first: Indices, second: Indices) -> Bools:
        """Which pieces lie in all placements as one body."""
        ways = self.ends[:, first, :, None] - self.ends[:, second, None]
        far = np.linalg.norm(ways, axis=4).reshape(len(self.shares), first.size, 4)
        sizes = self._room(first, second)[:, :, None]
        found: Bools = (np.ptp(np.concatenate([far, sizes], axis=2), axis=0)
                        <= ROUNDING_NM).all(axis=1)
        return found

    def _touching(self, first: Indices, second: Indices) -> Bools:
        """Which pieces touch in all placements."""
        far = self._clearances(first, second)
        allowed = TOUCHING_NM + self.bulge[:, first] + self.bulge[:, second]
        found: Bools = ((far <= TOUCHING_NM) & (far >= -allowed)).all(axis=0)
        return found

    def _clearances(self, first: Indices, second: Indices) -> Array:
        """How far two pieces are apart in each placement, one beside the other or within it."""
        far: Array = np.maximum(self._spaces(first, second).min(axis=2),
                                self._spaces(second, first).min(axis=2))
        for place, _ in enumerate(self.shares):
            for axis in _axes_of(self.ends[place, first], self.ends[place, second]):
                gaps = self._gaps(first, second, axis)[place].min(axis=1)
                far[place] = np.fmax(far[place], gaps)
        return far


def _falls(first: Array, last: Array, bend: Array) -> Array:
    """How far parabolas fall below 0 that begin and end above, and fall by a bend half way."""
    steep = 4 * bend + first - last
    is_between = (steep > 0) & (steep < 8 * bend)
    lowest = steep ** 2 / np.where(is_between, 16 * bend, 1) - first
    found: Array = np.where(is_between, np.maximum(lowest, 0), 0)
    return found


def _axes_of(first: Array, second: Array) -> Iterator[Array]:
    """Directions along which two pieces may be apart: square to each, and from end to end."""
    beyond = second.mean(axis=1) - first.mean(axis=1)
    for ends in (first, second):
        way = ends[:, 1] - ends[:, 0]
        yield _unit(np.stack([-way[:, 1], way[:, 0]], axis=1), beyond)
    for start in (0, 1):
        for end in (0, 1):
            yield _unit(second[:, end] - first[:, start], beyond)


def _unit(ways: Array, beyond: Array) -> Array:
    """Ways of length 1 that lead beyond; not a number where there is no way."""
    long = np.linalg.norm(ways, axis=1, keepdims=True)
    side = np.where(np.einsum("ki,ki->k", ways, beyond) < 0, -1.0, 1.0)[:, None]
    found: Array = side * ways / np.where(long > 0, long, np.nan)
    return found
