"""The rows of each kind that isn't linear, as arrays: what their ways come to, and how that changes
with the ways."""
from __future__ import annotations

from collections.abc import Iterator, Sequence
from dataclasses import dataclass

import numpy as np

from pertxogai.search.arrays import Array
from pertxogai.search.row import Kind, Row


@dataclass(frozen=True)
class Ways:
    """Ways as they are somewhere: their lengths, and their directions as ways of length 1."""

    xy: Array
    lengths: Array
    unit: Array

    @staticmethod
    def of(xy: Array, least_nm: float) -> Ways:
        """Ways by x and y, of which none counts as shorter than the least."""
        lengths = np.maximum(np.hypot(xy[:, 0], xy[:, 1]), least_nm)
        return Ways(xy, lengths, xy / lengths[:, None])


class RowsOfKind:
    """The rows of one kind: their numbers, and the numbers of their ways."""

    ways_each = 2

    def __init__(self, kind: Kind, rows: Sequence[Row], first_way: Sequence[int]) -> None:
        chosen = [number for number, row in enumerate(rows) if row.kind is kind]
        self.rows = np.array(chosen, dtype=np.intp)
        self.first = np.array([first_way[number] for number in chosen], dtype=np.intp)
        self.second = self.first + 1
        self.turns = np.array([rows[number].turn for number in chosen]).reshape(-1, 2)

    def values(self, ways: Ways) -> Array:
        """What the ways of each row come to."""
        raise NotImplementedError

    def slopes(self, ways: Ways) -> Array:
        """How that changes with x and y of them: pair by pair, as `pairs` has them."""
        raise NotImplementedError

    def pairs(self) -> Iterator[tuple[int, int]]:
        """Each row with its first way, and then each row with its second."""
        for ways in (self.first, self.second)[:self.ways_each]:
            yield from zip(self.rows.tolist(), ways.tolist())


class Distances(RowsOfKind):
    """|w|"""

    ways_each = 1

    def values(self, ways: Ways) -> Array:
        return ways.lengths[self.first]

    def slopes(self, ways: Ways) -> Array:
        return ways.unit[self.first]


class EqualLengths(RowsOfKind):
    """|u| - |v|"""

    def values(self, ways: Ways) -> Array:
        found: Array = ways.lengths[self.first] - ways.lengths[self.second]
        return found

    def slopes(self, ways: Ways) -> Array:
        return np.concatenate([ways.unit[self.first], -ways.unit[self.second]])


class Asides(RowsOfKind):
    """side * (u x Rw) / |u|: the side is the drawn one, or the left."""

    def __init__(self, rows: Sequence[Row], first_way: Sequence[int], drawn: Ways) -> None:
        super().__init__(Kind.ASIDE, rows, first_way)
        is_sided = np.array([rows[number].is_sided for number in self.rows], dtype=bool)
        self._side = np.ones(len(self.rows))
        self._side[is_sided & (self.values(drawn) < 0)] = -1.0

    def values(self, ways: Ways) -> Array:
        turned = turned_by(self.turns, ways.xy[self.second])
        found: Array = self._side * cross(ways.unit[self.first], turned)
        return found

    def slopes(self, ways: Ways) -> Array:
        unit, turned = ways.unit[self.first], turned_by(self.turns, ways.xy[self.second])
        aside = cross(unit, turned)[:, None]
        by_first = (-left(turned) - unit * aside) / ways.lengths[self.first][:, None]
        by_second = turned_back(self.turns, left(unit))
        side = self._side[:, None]
        return np.concatenate([by_first * side, by_second * side])


class Leans(RowsOfKind):
    """size * (the angle from u to Rv), and these sizes. Which of the two ways round parallel lines
    run is the drawn one where they are held firmly, else the nearer one."""

    def __init__(self, rows: Sequence[Row], first_way: Sequence[int], drawn: Ways,
                 least_nm: float) -> None:
        super().__init__(Kind.LEAN, rows, first_way)
        self._is_directed = np.array([rows[number].is_directed for number in self.rows], dtype=bool)
        is_known = np.array([[not way.factors for way in rows[number].ways]
                             for number in self.rows], dtype=bool).reshape(-1, 2)
        lengths = np.stack([drawn.lengths[self.first], drawn.lengths[self.second]], axis=1)
        shorter = np.where(is_known, np.inf, lengths).min(axis=1, initial=np.inf)
        self.size_nm = np.maximum(np.where(np.isfinite(shorter), shorter, 1.0), least_nm)
        self._drawn_way = np.where(self._is_directed, 1.0, self._nearer(drawn))
        self.is_firm = False

    def values(self, ways: Ways) -> Array:
        first, second = self._units(ways)
        sine, cosine = cross(first, second), dot(first, second)
        way = self._drawn_way if self.is_firm else np.where(
            self._is_directed, 1.0, np.where(cosine < 0, -1.0, 1.0))
        found: Array = self.size_nm * np.arctan2(way * sine, way * cosine)
        return found

    def slopes(self, ways: Ways) -> Array:
        by_first, by_second = (
            left(ways.unit[which]) * (self.size_nm / ways.lengths[which])[:, None]
            for which in (self.first, self.second))
        return np.concatenate([-by_first, by_second])

    def _nearer(self, ways: Ways) -> Array:
        return np.where(dot(*self._units(ways)) < 0, -1.0, 1.0)

    def _units(self, ways: Ways) -> tuple[Array, Array]:
        """The directions of u and of Rv."""
        return ways.unit[self.first], turned_by(self.turns, ways.unit[self.second])


def dot(first: Array, second: Array) -> Array:
    """The scalar products of ways, pair by pair."""
    found: Array = np.einsum("ij,ij->i", first, second)
    return found


def cross(first: Array, second: Array) -> Array:
    """The cross products of ways, pair by pair."""
    found: Array = first[:, 0] * second[:, 1] - first[:, 1] * second[:, 0]
    return found


def left(ways: Array) -> Array:
    """Ways, turned by a right angle to the left."""
    found = np.empty_like(ways)
    np.negative(ways[:, 1], out=found[:, 0])
    found[:, 1] = ways[:, 0]
    return found


def turned_by(turns: Array, ways: Array) -> Array:
    """Ways, each turned by its turn."""
    cosine, sine = turns[:, :1], turns[:, 1:]
    found: Array = cosine * ways + sine * left(ways)
    return found


def turned_back(turns: Array, ways: Array) -> Array:
    """Ways, each turned by its turn the other way round."""
    cosine, sine = turns[:, :1], turns[:, 1:]
    found: Array = cosine * ways - sine * left(ways)
    return found
