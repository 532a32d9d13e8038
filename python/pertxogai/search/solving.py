"""Places for a drawing that nothing places: the nearest to what is drawn, and the way round that it
is drawn.

In this order, until one meets all rows with nothing the other way round:
  1. the drawing, scaled as a whole to its dimensions, with parallel lines the way round that they
     are drawn;
  2. the same with that left open;
  3. the drawing in another scale;
  4. where nothing meets them yet, 2 from the drawing upside down, and from it mirrored sideways: a
     word with a sign may ask for that;
  5. a walk: the rows are led to 0 in 4, 16 and then 64 equal parts, each solved from the last;
  6. 2 from places that are shaken a little, eight times.
Else the best of them is taken."""
from __future__ import annotations

from collections.abc import Callable, Iterator
from dataclasses import dataclass
from functools import cached_property

import numpy as np

from pertxogai.search.arrays import Array
from pertxogai.search.budget import Budget
from pertxogai.search.departures import Departures
from pertxogai.search.descent import MET_NM, End, descend
from pertxogai.search.equations import Equations

WALKS = (4, 16, 64)
"""The parts of each walk."""
WALK_STEPS = 12
"""The most steps of one part of a walk."""
WALK_NEAR = 1e-4
"""A part of a walk ends within this part of the drawing's size."""
SAME_SCALE, OTHER_SCALE = 1.15, 1.001
"""Within this factor a drawing isn't scaled: at first, and where another scale is tried."""
SHAKES, SHAKE = 8, 0.05
"""How often it is shaken, and by which part of its size."""
LEAST_LENGTH = 1e-6
"""What is drawn shorter than this part of the drawing's size tells no scale."""


@dataclass(frozen=True)
class Found:
    """Where a try ended, and how many things lie the other way round than drawn there."""

    end: End
    departures: int

    @property
    def x(self) -> Array:
        """The unknowns, in nanometres."""
        return self.end.x

    def is_solved(self) -> bool:
        """Whether all rows are met."""
        return self.end.is_met()

    def is_as_drawn(self) -> bool:
        """Whether they are, with nothing the other way round."""
        return self.is_solved() and self.departures == 0

    def worth(self) -> tuple[bool, int, float]:
        """The less, the better."""
        return not self.is_solved(), self.departures, self.end.worst_nm if (
            not self.is_solved()) else 0.0


Try = Callable[[], End]


def solve(equations: Equations, budget: Budget | None = None) -> Found:
    """The places that are found of a drawing, or those that miss the least."""
    return _Solving(equations, budget or Budget()).best()


def can_be_met(equations: Equations, within_nm: float, budget: Budget,
               counts: Callable[[Array], bool] = lambda x: True) -> bool:
    """Whether places are found at which no row is off by more than so many nanometres, whichever
    way round things lie there. counts: whether places count, for some unknowns."""
    return _Solving(equations, budget).meets(within_nm, counts)


class _Solving:
    """All tries at one drawing."""

    def __init__(self, equations: Equations, budget: Budget) -> None:
        self._budget, self._unknowns = budget, equations.unknowns
        self._firm, self._loose = equations.firm(True), equations.firm(False)
        self._start = scaled(equations, SAME_SCALE)
        self._found: list[Found] = []

    def best(self) -> Found:
        """The first that is as drawn, else the best."""
        for end in self._ends():
            self._found.append(Found(end, self._departures.count(end.x) if end.is_met() else 0))
            if self._found[-1].is_as_drawn() or self._budget.is_spent():
                break
        return min(self._found, key=Found.worth)

    def meets(self, within_nm: float, counts: Callable[[Array], bool]) -> bool:
        """Whether one of them that counts meets all within so many nanometres."""
        for end in self._ends():
            if (end.is_met() or end.worst_nm <= within_nm) and counts(end.x):
                return True
            self._found.append(Found(end, 0))
            if self._budget.is_spent():
                break
        return False

    @cached_property
    def _departures(self) -> Departures:
        return Departures(self._unknowns)

    def _ends(self) -> Iterator[End]:
        """Where each try ends, in their order; each is begun once the last is judged."""
        yield descend(self._firm, self._start, self._budget)
        yield descend(self._loose, self._start, self._budget)
        yield from self._other_scale()
        yield from self._mirrored()
        yield from self._walks()
        yield from self._shaken()

    def _other_scale(self) -> Iterator[End]:
        drawn = self._loose.drawn
        other = scaled(self._loose, OTHER_SCALE) if self._start is drawn else drawn
        if other is not self._start:
            yield descend(self._loose, other, self._budget)

    def _mirrored(self) -> Iterator[End]:
        """From the drawing mirrored about the given places that it holds, or about its middle."""
        unknowns = self._loose.unknowns
        points = 2 * len(unknowns.points)
        held = list(unknowns.held()) or self._start[:points].reshape(-1, 2).tolist()
        for is_x in (1, 0):
            if held and not any(found.is_solved() for found in self._found):
                mirrored = self._start.copy()
                about = sum(place[is_x] for place in held) / len(held)
                mirrored[is_x:points:2] = 2 * about - mirrored[is_x:points:2]
                yield descend(self._loose, mirrored, self._budget)

    def _walks(self) -> Iterator[End]:
        """Walks of more and more parts, as long as more seem to be worth it."""
        for parts in WALKS:
            before = min(self._found, key=Found.worth)
            yield self._walk(parts)
            after = self._found[-1]
            if before.is_solved() and after.departures >= before.departures:
                return  # The dimensions themselves turn it round.
            if not (before.is_solved() or after.is_solved()) and parts > WALKS[0]:
                return

    def _walk(self, parts: int) -> End:
        equations, end = self._firm, End(self._start, np.inf)
        off = equations.off(self._start)
        for left in range(parts - 1, 0, -1):
            end = descend(equations, end.x, self._budget, off * (left / parts), WALK_STEPS,
                          WALK_NEAR * equations.size_nm)
        return descend(equations, end.x, self._budget)

    def _shaken(self) -> Iterator[End]:
        chance = np.random.default_rng(1)
        for _ in range(SHAKES):
            by = chance.uniform(-SHAKE, SHAKE, len(self._start)) * self._loose.size_nm
            yield descend(self._loose, self._start + by, self._budget)


def scaled(equations: Equations, same: float) -> Array:
    """The drawn places, scaled as a whole to the drawing's dimensions where these ask for another
    scale; about the origin, since a drawing that uses it begins there. Where points are given
    elsewhere, nothing is scaled."""
    x = equations.drawn
    if any(map(any, equations.unknowns.given.values())):
        return x
    least_nm = LEAST_LENGTH * equations.size_nm
    ratios = [wanted_nm / now_nm for wanted_nm, now_nm in equations.sizes(x)
              if wanted_nm >= 1.0 and now_nm > least_nm]
    factor = float(np.median(ratios)) if ratios else 1.0
    return x if 1 / same < factor < same else x * factor


__all__ = ["MET_NM", "Found", "can_be_met", "scaled", "solve"]
