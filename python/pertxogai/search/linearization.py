"""The rows of a drawing somewhere, to the first order, and how they bend near by."""
from __future__ import annotations

from collections.abc import Callable, Sequence
from dataclasses import dataclass

import numpy as np

from pertxogai.search.arrays import Array, Matrix
from pertxogai.search.equations import size_nm
from pertxogai.search.rank import Free
from pertxogai.search.unknowns import Unknowns

STEP = 1e-6
"""How far parts are moved to see how the rows bend, as a part of the drawing's size."""
LEAST_MOTION = 1e-6
"""Of what is free a motion has a greater part than this, or nothing is free."""


@dataclass(frozen=True)
class Linearization:
    """The rows of a drawing where its unknowns are x: their Jacobian, with rows of length 1, and
    what gives the same near by."""

    unknowns: Unknowns
    x: Array
    jacobian: Matrix
    near: Callable[[Array], Matrix]

    def step_nm(self) -> float:
        """How far parts are moved."""
        return STEP * size_nm(self.unknowns, self.x)

    def bends(self, free: Sequence[Free]) -> Array:
        """How each row would change along one free motion where another has moved the drawing, in
        parts of its size: 0 where what is free stays so. Both are by chance."""
        chance = np.random.default_rng(1)
        along, aside = (motion(free, len(self.x), chance) for _ in range(2))
        step = self.step_nm() * aside
        found: Array = (self.near(self.x + step) @ along
                        - self.near(self.x - step) @ along) / (2 * STEP)
        return found


def motion(free: Sequence[Free], count: int, chance: np.random.Generator) -> Array:
    """Some motion of all that is free of so many unknowns, of which the greatest part is 1."""
    found = np.zeros(count)
    for each in free:
        found[each.columns] += each.ways @ chance.standard_normal(each.ways.shape[1])
    some: Array = found / max(float(np.abs(found).max(initial=0.0)), LEAST_MOTION)
    return some
