"""A drawing as equations: how far each row is off 0 at some places, and how that changes with them.

A way is a combination of points with constant factors, so all ways are one product of a matrix with
the unknowns; and each entry of the Jacobian is a combination, always the same, of the slopes of
rows by their ways."""
from __future__ import annotations

from collections.abc import Collection, Iterable, Iterator, Sequence
from copy import copy
from typing import NamedTuple, Self

import numpy as np

from pertxogai.drawing import Drawing
from pertxogai.search.arrays import Array, Entry, Matrix, Sums
from pertxogai.search.combination import Combination
from pertxogai.search.constraint_rows import rows_of
from pertxogai.search.kinds import Asides, Distances, EqualLengths, Leans, RowsOfKind, Ways
from pertxogai.search.pattern import Pattern, SlopeEntry
from pertxogai.search.row import Kind, Row
from pertxogai.search.unknowns import By, Unknowns

LEAST_SIZE_NM = 1e3
"""No drawing counts as smaller than a micrometre."""
LEAST_WAY = 1e-9
"""No way counts as shorter than this part of the drawing's size."""
LEAST_LEAN = 1e-3
"""No direction counts for less than that of a line of this part of the drawing's size."""


class Tangents(NamedTuple):
    """The rows somewhere, in nanometres, and their Jacobian."""

    off: Array
    jacobian: Matrix


class System:
    """Rows over some unknowns. What the places where it begins decide (sides, which way round) is
    read off them once. drawn: the unknowns there. size_nm: its size. count: how many unknowns."""

    def __init__(self, rows: Iterable[Row], drawn: Array, size_nm: float) -> None:
        self.rows = tuple(rows)
        self.drawn = drawn
        self.size_nm = size_nm
        self.count = len(drawn)
        self._assemble()

    # -- what is reckoned

    def off(self, x: Array) -> Array:
        """How far each row is off 0, in nanometres."""
        return self._off(x, self._ways(x))

    def tangents(self, x: Array) -> Tangents:
        """The same, with the Jacobian."""
        ways = self._ways(x)
        slopes = [kind.slopes(ways).ravel() for kind in self._kinds]
        return Tangents(self._off(x, ways), self._pattern.matrix(slopes))

    def firm(self, is_firm: bool) -> Self:
        """The same, where parallel lines must run the way round that they are drawn, or may run
        either way."""
        other = copy(self)
        other._leans = copy(self._leans)
        other._leans.is_firm = is_firm
        other._kinds = tuple(other._leans if each is self._leans else each for each in self._kinds)
        return other

    def sizes(self, x: Array) -> Iterable[tuple[float, float]]:
        """Of each row that has a designer's length: that length, and what is there instead."""
        now = np.abs(self.off(x) + self._numbers_nm)
        return ((abs(row.number_nm), float(each)) for row, each in zip(self.rows, now)
                if row.is_size)

    def radians_nm(self) -> Array:
        """By how many nanometres each row that asks for a direction is off 0 for each radian, by
        its line as it is drawn; infinitely many for what is a length."""
        found = np.full(len(self.rows), np.inf)
        found[self._leans.rows] = self._leans.size_nm
        for number, row in enumerate(self.rows):
            if row.level is not None:
                found[number] = max(row.level.length_nm(self.drawn), LEAST_LEAN * self.size_nm)
        return found

    # -- how it is put together

    def _assemble(self) -> None:
        rows = self.rows
        first_way = np.cumsum([0, *(len(row.ways) for row in rows)]).tolist()
        all_ways = [way for row in rows for way in row.ways]
        self._numbers_nm = np.array([row.number_nm for row in rows])
        linear = list(_linear_entries(rows))
        self._linear = Sums(linear, len(rows))
        self._constant = np.array([(way.x_nm, way.y_nm) for way in all_ways]).reshape(-1, 2)
        self._of_ways = Sums(_way_entries(all_ways), 2 * len(all_ways))
        drawn = self._ways(self.drawn)
        self._leans = Leans(rows, first_way, drawn, LEAST_LEAN * self.size_nm)
        kinds: tuple[RowsOfKind, ...] = (
            Distances(Kind.DISTANCE, rows, first_way), EqualLengths(Kind.EQUAL, rows, first_way),
            Asides(rows, first_way, drawn), self._leans)
        self._kinds = tuple(kind for kind in kinds if len(kind.rows))
        pairs = [pair for kind in self._kinds for pair in kind.pairs()]
        self._pattern = Pattern((len(rows), self.count), linear, _slope_entries(pairs, all_ways))

    def _ways(self, x: Array) -> Ways:
        xy = self._of_ways.of(x).reshape(-1, 2) + self._constant
        return Ways.of(xy, LEAST_WAY * self.size_nm)

    def _off(self, x: Array, ways: Ways) -> Array:
        off: Array = self._linear.of(x) - self._numbers_nm
        for kind in self._kinds:
            off[kind.rows] += kind.values(ways)
        return off


class Equations(System):
    """The rows of a drawing, which begins as it is drawn: all but those of some constraints, by
    their places, from 1. The points that these join stay one."""

    def __init__(self, drawing: Drawing, left_out: Collection[int] = ()) -> None:
        self.unknowns = Unknowns(drawing)
        drawn = self.unknowns.drawn()
        rows = (each for each in rows_of(self.unknowns)
                if each.source.by is By.SHAPE or each.source.number not in left_out)
        super().__init__(rows, drawn, size_nm(self.unknowns, drawn))

    def beside(self, rows: Iterable[Row]) -> System:
        """Rows of other constraints on the same unknowns."""
        return System(rows, self.drawn, self.size_nm)


def size_nm(unknowns: Unknowns, x: Array) -> float:
    """How large a drawing is where its unknowns are x: the greatest of its width and its height,
    with what is given, and of the radii."""
    points = 2 * len(unknowns.points)
    places = np.vstack([x[:points].reshape(-1, 2), np.array(list(unknowns.given.values()))])
    return float(max(np.ptp(places, axis=0).max(), x[points:].max(initial=0.0), LEAST_SIZE_NM))


def _linear_entries(rows: Iterable[Row]) -> Iterator[Entry]:
    """The factors of the unknowns in each row."""
    for number, row in enumerate(rows):
        for column, factor in row.linear.items():
            yield number, column, factor


def _way_entries(ways: Iterable[Combination]) -> Iterator[Entry]:
    """The factors of the unknowns in x and in y of each way."""
    for number, way in enumerate(ways):
        for point, factor in way.factors.items():
            yield 2 * number, 2 * point, factor
            yield 2 * number + 1, 2 * point + 1, factor


def _slope_entries(pairs: Iterable[tuple[int, int]],
                   ways: Sequence[Combination]) -> Iterator[SlopeEntry]:
    """Where the slopes by x and by y of each pair of a row and a way come in the Jacobian."""
    for number, (row, way) in enumerate(pairs):
        for point, factor in ways[way].factors.items():
            yield row, 2 * point, 2 * number, factor
            yield row, 2 * point + 1, 2 * number + 1, factor
