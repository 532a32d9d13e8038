"""How many degrees of freedom a drawing has where it was found, what they move, what is said twice
and what contradicts: by the rank of its rows there, in floats.

A distance of lines doesn't say that they are parallel: another constraint has to. Until one does,
the row of its far end keeps the lines parallel where places are looked for, and counts for
nothing here: what turns one of the lines is a freedom, and is told to move."""
from __future__ import annotations

from dataclasses import dataclass, replace

import numpy as np

from pertxogai.search.arrays import Array, row_factors, rows_times, unit_rows
from pertxogai.search.dependencies import Dependency, dependencies
from pertxogai.search.equations import Equations
from pertxogai.search.linearization import Linearization
from pertxogai.search.motions import Motions, motions
from pertxogai.search.rank import Free, rank_of
from pertxogai.search.unknowns import By
from pertxogai.search.whole import of_the_whole


@dataclass(frozen=True)
class Freedom:
    """The degrees of freedom, those of the whole among them.

    count, motions: what the constraints leave free. crooked: the distances of lines, by the places
    of the constraints from 1, of which nothing else says that the lines are parallel. free: how the
    unknowns may move by piece while these lines stay parallel, and whole: how all of it may be
    moved at once then, as columns of length 1. dependencies: what is said twice and what
    contradicts. is_sure: False where the rank lies near its cut, as where two solutions meet, or is
    another as soon as what is free moves; there the count may be off."""

    count: int
    motions: Motions
    dependencies: tuple[Dependency, ...]
    free: tuple[Free, ...]
    whole: Array
    is_sure: bool
    crooked: frozenset[int]

    def ways(self) -> int:
        """In how many ways the unknowns may move while those lines stay parallel."""
        return sum(each.ways.shape[1] for each in self.free)


def freedom(equations: Equations, x: Array) -> Freedom:
    """The freedoms where the unknowns are x."""
    unknowns = equations.unknowns
    off, jacobian = equations.tangents(x)
    factors = row_factors(jacobian)
    asked = Linearization(unknowns, x, rows_times(jacobian, factors),
                          lambda near: unit_rows(equations.tangents(near).jacobian))
    rank = held = rank_of(asked.jacobian, len(unknowns.points))
    bends = asked.bends(held.free) if held.dependent else np.zeros(len(off))
    radians = equations.radians_nm() * factors
    found = [each for dependent in held.dependent
             for each in dependencies(equations.rows, off * factors, radians, bends, dependent)]
    crooked, whole = _crooked(equations, found), of_the_whole(asked, held.free)
    if crooked:
        asked = _without_measured(equations, asked)
        rank = rank_of(asked.jacobian, len(unknowns.points))
    return Freedom(unknowns.count - rank.rank, motions(asked, rank.free),
                   tuple(each for each in found if each.sources[0].by is By.CONSTRAINT),
                   held.free, whole, held.is_sure and rank.is_sure
                   and all(each.lasts for each in found), crooked)


def _crooked(equations: Equations, found: list[Dependency]) -> frozenset[int]:
    """The distances of lines of which the far end follows from nothing."""
    ends = {row.source.number for row in equations.rows if row.source.by is By.MEASURED}
    return frozenset(ends - {each.sources[0].number for each in found
                             if each.sources[0].by is By.MEASURED})


def _without_measured(equations: Equations, asked: Linearization) -> Linearization:
    """The rows without what is only measured, as the far ends of distances of lines. Where one
    follows from what else is asked, nothing is lost; and from another far end none may follow."""
    kept = np.array([place for place, row in enumerate(equations.rows)
                     if row.source.by is not By.MEASURED], dtype=int)
    return replace(asked, jacobian=asked.jacobian[kept],
                   near=lambda near: asked.near(near)[kept])
