"""What is said twice, and what contradicts: groups of constraints, each by the one that is the
latest of them."""
from __future__ import annotations

from collections.abc import Iterator, Sequence
from dataclasses import dataclass
from math import inf

import numpy as np

from pertxogai.judging.measure.limit import ROUNDING_NM, Limit
from pertxogai.search.arrays import Array
from pertxogai.search.rank import Dependent
from pertxogai.search.row import Row
from pertxogai.search.unknowns import By, Source

SEEN = 1e-6
"""A factor below this part of the greatest is 0."""
BENT = 1e-3
"""What follows lasts where the bends of its rows cancel each other but for this part."""
LEAST_BEND = 1e-4
"""What bends by less, in parts of the drawing's size, is straight."""
PPB = 1e9
SAME_NM = 1.0
"""Constraints that are off each other by no more say the same: places are whole nanometres."""


@dataclass(frozen=True)
class Dependency:
    """Constraints and shapes of which one follows from the others, or contradicts them: the latest
    first, and by how many nanometres it is off what the others say. lasts: whether it still follows
    where what is free is moved; else it only seems to, as of a chain that is pulled straight.
    length_nm, turn_ppb: by how many nanometres a length among them would have to be another so that
    all hold, and by how many ppb a direction; infinitely many where there is none."""

    sources: tuple[Source, ...]
    off_nm: float
    lasts: bool = True
    length_nm: float = inf
    turn_ppb: float = inf

    def repeats(self) -> bool:
        """Whether the latest says what the others do."""
        return self.off_nm <= SAME_NM

    def holds(self, limit: Limit) -> bool:
        """Whether it says so within the limit: a length in nanometres, a direction in ppb, as far
        as whole nanometres can say it."""
        least = min(self.length_nm, self.turn_ppb)
        return least <= limit.amount or self.off_nm <= ROUNDING_NM


def dependencies(rows: Sequence[Row], off: Array, radians: Array, bends: Array,
                 dependent: Dependent) -> Iterator[Dependency]:
    """The dependencies among rows, of which `off` is how far each is off 0, `radians` by how much
    each that asks for a direction is for a radian, and `bends` how it changes along what is free
    where that has moved. What the shapes themselves ask for is the latest nowhere, and what is only
    measured wherever it may be: that it follows is what is asked for."""
    sources = [rows[number].source for number in dependent.rows]
    places = sorted(range(len(sources)), key=lambda place: lateness(sources[place]), reverse=True)
    for place, factors in _reduced(dependent.factors, places):
        seen = np.flatnonzero(np.abs(factors) > SEEN * np.abs(factors).max())
        group = {sources[each] for each in seen} - {sources[place]}
        latest_first = sorted(group, key=lateness, reverse=True)
        parts = factors / max(1.0, float(np.abs(factors).max()))
        yield Dependency((sources[place], *latest_first), abs(float(parts @ off[dependent.rows])),
                         _cancel(parts * bends[dependent.rows]),
                         *_least(factors[seen], off[dependent.rows][seen],
                                 radians[dependent.rows][seen]))


def _least(factors: Array, off: Array, radians: Array) -> tuple[float, float]:
    """By how many nanometres the length of one row would have to be another so that rows that are
    off so much hold, and by how many ppb the direction of one."""
    is_turn = np.isfinite(radians)
    shares = np.abs(factors) * np.where(is_turn, radians, 1.0)
    total_nm = abs(float(factors @ off))
    length, turn = (float(shares[which].max(initial=0.0)) for which in (~is_turn, is_turn))
    return total_nm / length if length else inf, PPB * total_nm / turn if turn else inf


def _cancel(bends: Array) -> bool:
    """Whether what rows bend by, each times its factor, comes to nothing."""
    return abs(float(bends.sum())) <= max(LEAST_BEND, BENT * float(np.abs(bends).sum()))


def lateness(source: Source) -> tuple[int, int]:
    """The greater, the later: shapes before constraints, and what is only measured behind all."""
    return (By.SHAPE, By.CONSTRAINT, By.MEASURED).index(source.by), source.number


def _reduced(factors: Array, order: Sequence[int]) -> Iterator[tuple[int, Array]]:
    """The same ways to 0, each with the place of its own latest row, which no other has."""
    ways = factors.copy()
    left = np.ones(len(ways), dtype=bool)
    latest: list[tuple[int, int]] = []
    for place in order:
        if not left.any():
            break
        size = np.where(left, np.abs(ways[:, place]), 0.0)
        chosen = int(size.argmax())
        if size[chosen] < SEEN:
            continue
        ways[chosen] /= ways[chosen, place]
        others = np.arange(len(ways)) != chosen
        ways[others] -= np.outer(ways[others, place], ways[chosen])
        left[chosen] = False
        latest.append((place, chosen))
    yield from ((place, ways[chosen]) for place, chosen in latest)
