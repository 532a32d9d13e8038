"""What may still move of a drawing where the search has placed it, and what a constraint would fix
of that: by the rank of what it asks there, in floats."""
from __future__ import annotations

from collections.abc import Iterator, Sequence
from dataclasses import dataclass
from fractions import Fraction
from functools import cached_property
from itertools import accumulate, chain

import numpy as np

from pertxogai.drawing import (
    Constraint, Drawing, Parallel, ParallelDistance, Sense, XDistance, YDistance)
from pertxogai.drawing.meetings import JOINING_ALONE, pair_of
from pertxogai.search.arrays import Array, dense
from pertxogai.search.constraint_rows import rows_asked
from pertxogai.search.equations import Equations
from pertxogai.search.rank import wide
from pertxogai.search.rounding import solution_of
from pertxogai.search.row import Row
from pertxogai.search.searched import Searched, searched
from pertxogai.search.values import drawn_at

FIRM = 1e-3
"""A constraint fixes a motion only if it changes by more than this part of it."""
SEEN = 1e-6
"""What changes by less stays."""
OFF_NM, OFF_SIZE = 2e4, 2e-4
"""The most by which a constraint is off the places that its value was read off and rounded:
nanometres, and a part of the drawing's size. One that is off by more means another side than the
one drawn."""


@dataclass(frozen=True)
class Slack:
    """A drawing that the search has placed. placed: the same drawn where it was placed. ways: how
    the unknowns may move, and whole: those ways in which all of it moves at once, as columns of
    length 1 that are square to each other. parallel: that lines are parallel of which a distance
    is told, and of which nothing else says so. says_twice: whether a constraint follows from others
    there."""

    drawing: Drawing
    placed: Drawing
    equations: Equations
    x: Array
    ways: Array
    whole: Array
    parallel: tuple[Parallel, ...]
    says_twice: bool

    @staticmethod
    def of(drawing: Drawing, seconds: float | None = None) -> Slack | None:
        """That of a sound drawing, which is searched for these seconds at most, else for as long as
        a search may take; None where no places are found, or too much is free."""
        search = searched(drawing) if seconds is None else Searched(drawing, seconds)
        equations, x, freedom = search.equations, search.found.x, search.freedom
        ways = wide(freedom.free, equations.unknowns.count)
        if not search.found.is_solved() or ways is None:
            return None
        placed = drawn_at(drawing, solution_of(equations.unknowns, x))
        whole = ways.T @ freedom.whole
        distances = (drawing.constraints[number - 1] for number in sorted(freedom.crooked))
        parallel = tuple(Parallel(each.first, each.second) for each in distances
                         if isinstance(each, ParallelDistance))
        return Slack(drawing, placed, equations, x, ways, whole, parallel,
                     bool(freedom.dependencies))

    def demands(self, constraints: Sequence[Constraint]) -> list[tuple[Constraint, Demand]]:
        """Some constraints, each with what it asks."""
        asked = [list(self._rows(each)) for each in constraints]
        off, jacobian = self.equations.beside(chain.from_iterable(asked)).tangents(self.x)
        rows = _unit(dense(jacobian))
        by_way, ends = rows @ self.ways, list(accumulate(map(len, asked), initial=0))
        return [(constraint, Demand(by_way[start:end], rows[start:end],
                                    float(np.abs(off[start:end]).max(initial=0.0))))
                for constraint, start, end in zip(constraints, ends, ends[1:])]

    def _rows(self, constraint: Constraint) -> Iterator[Row]:
        """The rows of a constraint; which points the drawing says are one stays as it is."""
        for each in _without_joining(constraint):
            yield from rows_asked(self.equations.unknowns, each)

    def around(self, row: Array) -> Array:
        """How the points and radii that a row speaks of may move: of a point both x and y."""
        coordinates = 2 * len(self.equations.unknowns.points)
        columns = np.flatnonzero(np.abs(row) > SEEN)
        pairs = columns[columns < coordinates]
        found: Array = self.ways[np.unique(np.concatenate([columns, pairs ^ 1]))]
        return found

    def most_off_nm(self) -> float:
        """By how many nanometres a constraint may be off whose value was read off the places."""
        return OFF_NM + OFF_SIZE * self.equations.size_nm


@dataclass(frozen=True)
class Demand:
    """What a constraint asks where a drawing is placed. by_way: how each of its rows, of length 1,
    changes with the ways in which the drawing may move. rows: these rows, by unknown. off_nm: by
    how much it is off."""

    by_way: Array
    rows: Array
    off_nm: float


def _unit(rows: Array) -> Array:
    """Rows, each of length 1 but for those that are nothing."""
    lengths = np.linalg.norm(rows, axis=1)
    found: Array = rows / np.where(lengths > SEEN, lengths, 1.0)[:, None]
    return found


def _without_joining(constraint: Constraint) -> tuple[Constraint, ...]:
    """What asks the same, but that points which are told to be one are still two."""
    pair = pair_of(constraint)
    if pair is None or not isinstance(constraint, JOINING_ALONE):
        return (constraint,)
    return (XDistance(pair.first, pair.second, Fraction(0), Sense.SIGNED),
            YDistance(pair.first, pair.second, Fraction(0), Sense.SIGNED))


@dataclass(frozen=True)
class Remaining:
    """What of a drawing's slack remains: without some directions, of length 1 and square to each
    other, among its ways to move."""

    slack: Slack
    without: Array

    @staticmethod
    def all(slack: Slack) -> Remaining:
        """All of it."""
        return Remaining(slack, np.zeros((0, slack.ways.shape[1])))

    def count(self) -> int:
        """How many ways to move remain."""
        return self.slack.ways.shape[1] - len(self.without)

    def of_the_whole(self) -> int:
        """How many of these move the whole."""
        return int(self._whole.shape[1])

    def after(self, demand: Demand, firmness: float = 0.0,
              ties_the_whole: bool = False) -> Remaining | None:
        """What remains once all that a constraint asks is fixed; None where some of it is fixed
        already, or moves the whole and may not (`ties_the_whole`). firmness: which part of what
        moves there it has to fix at least, from 0 to 1: less is nearly square to the motion."""
        if not ties_the_whole and self.moves_with_the_whole(demand):
            return None
        without = self.without
        for row, by_way in zip(demand.rows, demand.by_way):
            rest = by_way - without.T @ (without @ by_way)
            size = float(np.linalg.norm(rest))
            if size <= FIRM or firmness and size <= firmness * self._moving(row, without):
                return None
            without = np.vstack([without, rest / size])
        return Remaining(self.slack, without) if len(demand.by_way) else None

    def _moving(self, row: Array, without: Array) -> float:
        """How much moves of what a row speaks of, without some directions."""
        around = self.slack.around(row)
        return float(np.linalg.norm(around - around @ without.T @ without))

    def is_fixed(self, demand: Demand) -> bool:
        """Whether some of what a constraint asks doesn't remain free."""
        return self.after(demand, ties_the_whole=True) is None

    def moves_with_the_whole(self, demand: Demand) -> bool:
        """Whether what a constraint asks changes where the whole is moved."""
        return bool(np.abs(demand.by_way @ self._whole).max(initial=0.0) > SEEN)

    @cached_property
    def _whole(self) -> Array:
        """The motions of the whole that remain."""
        whole = self.slack.whole
        if not len(self.without) or not whole.shape[1]:
            return whole
        _, sizes, combinations = np.linalg.svd(self.without @ whole)
        sizes = np.concatenate([sizes, np.zeros(whole.shape[1] - len(sizes))])
        found: Array = whole @ combinations[sizes <= SEEN].T
        return found
