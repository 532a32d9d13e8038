"""The part of a drawing that may move with what a hand holds: what hangs together with it, without
what is fixed by itself, and without what lies apart. The rest stays where it is, and is a constant
of the part's rows: so a drag of a loose hole takes as long in a large plate as in a small one."""
from __future__ import annotations

from collections.abc import Collection, Iterable, Iterator, Sequence
from dataclasses import dataclass, replace

import numpy as np

from pertxogai.classes import Classes
from pertxogai.search.arrays import Array, Indices, Matrix, unit_rows
from pertxogai.search.combination import Combination
from pertxogai.search.equations import Equations, System
from pertxogai.search.rank import Free, rank_of
from pertxogai.search.row import Row
from pertxogai.search.whole import SEEN


@dataclass(frozen=True)
class Following:
    """The part that follows. columns: its unknowns among those of the whole drawing, of its points
    first and then its radii, which begin at `first_radius`."""

    system: System
    columns: Indices
    first_radius: int

    def held(self, columns: Iterable[int]) -> Indices:
        """Unknowns of the whole drawing as those of the part; without those that stay."""
        at = {column: place for place, column in enumerate(self.columns.tolist())}
        return np.array([at[each] for each in columns if each in at], dtype=np.intp)


def following(equations: Equations, x: Array, held: Collection[int],
              loose: Collection[int] | None = None) -> Following:
    """The part that follows the held unknowns of a drawing that is solved at x. loose: the unknowns
    that move to the first order, where these are known."""
    unknowns = equations.unknowns
    moving = _hanging(equations, held, _firm(equations, x, loose))
    points = [number for number in range(len(unknowns.points))
              if not moving.isdisjoint((2 * number, 2 * number + 1))]
    radii = [column for column in unknowns.column_of.values() if column in moving]
    columns = [2 * number + each for number in points for each in (0, 1)] + radii
    inside = _Inside(columns, points, x)
    rows = (inside.row(row) for row in equations.rows
            if not inside.columns.keys().isdisjoint(columns_of(row)))
    system = System(rows, x[columns], equations.size_nm)
    return Following(system.firm(True), np.array(columns, dtype=np.intp), 2 * len(points))


# -- what may move


def loose_columns(free: Iterable[Free]) -> Iterator[int]:
    """The unknowns that some free motions move."""
    for each in free:
        moves = np.linalg.norm(each.ways, axis=1) > SEEN
        yield from each.columns[moves].tolist()


def _firm(equations: Equations, x: Array, loose: Collection[int] | None) -> set[int]:
    """The unknowns that are fixed by rows which speak of no others that move. That an unknown
    stays to the first order isn't enough: at its dead point a slider does. So what rows tie to what
    moves is looked at again without these."""
    jacobian = unit_rows(equations.tangents(x).jacobian)
    if loose is None:
        loose = set(loose_columns(rank_of(jacobian, len(equations.unknowns.points)).free))
    columns = [columns_of(row) for row in equations.rows]
    firm = set(range(equations.count)).difference(loose)
    while moves := _moves_without(jacobian, columns, firm):
        firm -= moves
    return firm


def _moves_without(jacobian: Matrix, columns: Sequence[set[int]], firm: set[int]) -> set[int]:
    """Of what is taken to be firm, what moves by the rows alone that speak of nothing else; sought
    among what such rows tie to unknowns which other rows tie to what moves."""
    touched = {column for each in columns if not each <= firm for column in each & firm}
    pieces, inside = Classes[int](), list[int]()
    for number, each in enumerate(columns):
        if each and each <= firm:
            inside.append(number)
            _join(pieces, sorted(each))
    leaders = set(map(pieces.leader, touched))
    rows = [number for number in inside if pieces.leader(min(columns[number])) in leaders]
    mine = sorted(touched.union(*(columns[number] for number in rows)))
    if not mine:
        return set()
    found = loose_columns(rank_of(jacobian[rows][:, mine], 0).free)
    return {mine[place] for place in found}


def _join(pieces: Classes[int], columns: Sequence[int]) -> None:
    for column in columns[1:]:
        pieces.join(columns[0], column)


def _hanging(equations: Equations, held: Collection[int], firm: Collection[int]) -> set[int]:
    """The unknowns that hang together with the held ones by rows, without what is firm."""
    pieces = Classes[int]()
    for row in equations.rows:
        _join(pieces, sorted(columns_of(row).difference(firm)))
    leaders = {pieces.leader(column) for column in held if column not in firm}
    return {column for column in range(equations.count)
            if column not in firm and pieces.leader(column) in leaders}


def columns_of(row: Row) -> set[int]:
    """The unknowns that a row speaks of."""
    points = {point for way in row.ways for point in way.factors}
    return set(row.linear).union(2 * point + each for point in points for each in (0, 1))


# -- the rows of the part


class _Inside:
    """The unknowns of a part, by those of the whole, and the places of all."""

    def __init__(self, columns: Sequence[int], points: Sequence[int], x: Array) -> None:
        self.columns = {column: place for place, column in enumerate(columns)}
        self._points = {point: place for place, point in enumerate(points)}
        self._x = x

    def row(self, row: Row) -> Row:
        """A row of the whole as one of the part."""
        linear = {self.columns[column]: factor for column, factor in row.linear.items()
                  if column in self.columns}
        known_nm = sum(factor * float(self._x[column]) for column, factor in row.linear.items()
                       if column not in self.columns)
        return replace(row, ways=tuple(map(self._way, row.ways)), linear=linear,
                       number_nm=row.number_nm - known_nm, level=None)

    def _way(self, way: Combination) -> Combination:
        """A way, with what stays in its constant."""
        factors = {self._points[point]: factor for point, factor in way.factors.items()
                   if point in self._points}
        x_nm, y_nm = way.x_nm, way.y_nm
        for point, factor in way.factors.items():
            if point not in self._points:
                x_nm += factor * float(self._x[2 * point])
                y_nm += factor * float(self._x[2 * point + 1])
        return Combination(factors, x_nm, y_nm)
