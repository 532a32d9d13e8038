"""From some places to the nearest at which all rows are 0: Levenberg-Marquardt in its dual form.

A step is J'(JJ' + damping)^-1 of what is wanted. As the damping goes to 0 it is the least step that
mends the rows, whether or not rows repeat each other: so what nothing asks for stays as it is."""
from __future__ import annotations

from dataclasses import dataclass

import numpy as np

from pertxogai.search.arrays import Array, Matrix, columns_times, row_squares
from pertxogai.search.budget import Budget
from pertxogai.search.equations import System, Tangents
from pertxogai.search.least_steps import damped_step, least_step

MET_NM = 1e-2
"""Rows that are all this near to 0 are met, before the places are rounded."""
STEPS = 60
"""The most steps of one descent."""
FIRST_DAMPING, LEAST_DAMPING, MOST_DAMPING = 1e-3, 1e-14, 1e12
"""Times the greatest diagonal entry of JJ'."""
REACH = 0.3
"""No step moves anything farther than this part of the drawing's size."""
MOST_STALLS = 8
"""How many steps in a row that gain next to nothing end a descent."""
STALL = 1e-6
"""Next to nothing: this part of the sum of squares."""
EXACT_NM = 1e-4
ROUNDING = 1e-15
"""Rows can't be told from 0 below this part of the drawing's size."""
POLISHES = 4
NEAR = 1e-3
"""Polishing begins where the rows are off by less than this part of the drawing's size."""


@dataclass(frozen=True)
class End:
    """Where a descent ended, and by how many nanometres the worst row is off there."""

    x: Array
    worst_nm: float

    def is_met(self) -> bool:
        """Whether all rows are met."""
        return self.worst_nm <= MET_NM


def descend(equations: System, x: Array, budget: Budget, aim: Array | float = 0.0,
            steps: int = STEPS, enough_nm: float = MET_NM, ease: Array | None = None) -> End:
    """From x to where the rows are `aim`. It ends where the worst is off that by less than
    `enough_nm`, and a hundredth of what counts as met. ease: how easily each unknown moves, where
    some do less than others: a step is least once each is divided by its ease."""
    descent = _Descent(equations, x, aim, ease)
    if equations.rows and equations.count:
        descent.run(budget, steps, min(EXACT_NM, enough_nm))
    return End(descent.x, descent.worst_nm())


class _Descent:
    """One descent: where it is, and how much the next step is damped."""

    def __init__(self, equations: System, x: Array, aim: Array | float,
                 ease: Array | None) -> None:
        self._equations, self._aim = equations, aim
        self._ease = ease
        self._damping, self._growth, self._stalls = FIRST_DAMPING, 4.0, 0
        self._floor_nm = ROUNDING * equations.size_nm
        self.x = x
        self._at = self._tangents(x)

    def worst_nm(self) -> float:
        """By how much the worst row is off."""
        return float(np.abs(self._at.off).max(initial=0.0))

    def run(self, budget: Budget, steps: int, enough_nm: float) -> None:
        """Goes down until the rows are met well enough, nothing is gained, or the budget is
        spent; then polishes."""
        for _ in range(steps):
            if self.worst_nm() <= max(enough_nm, self._floor_nm) or budget.is_spent():
                break
            budget.spend()
            self._step()
            if self._stalls >= MOST_STALLS or self._damping > MOST_DAMPING:
                break
        self._polish(budget)

    def _tangents(self, x: Array) -> Tangents:
        off, jacobian = self._equations.tangents(x)
        return Tangents(off - self._aim, jacobian)

    def _step(self) -> None:
        off, jacobian = self._at
        eased = self._eased(jacobian)
        damping = max(self._damping, LEAST_DAMPING) * float(row_squares(eased).max())
        step = self._within_reach(self._eased_step(damped_step(eased, -off, damping)))
        hoped = off @ off - _square(off + jacobian @ step)
        trial = self.x + step
        there = self._tangents(trial)
        gained = off @ off - _square(there.off)
        if np.isfinite(gained) and gained > 0 and hoped > 0:
            self._stalls = self._stalls + 1 if gained < STALL * (off @ off) else 0
            self._relax(float(gained / hoped))
            self.x, self._at = trial, there
        else:
            self._damping = max(self._damping, LEAST_DAMPING) * self._growth
            self._growth *= 2
            self._stalls += 1

    def _eased(self, jacobian: Matrix) -> Matrix:
        """The Jacobian by unknowns that are divided by their ease."""
        return jacobian if self._ease is None else columns_times(jacobian, self._ease)

    def _eased_step(self, step: Array) -> Array:
        """A step of those as one of the unknowns."""
        return step if self._ease is None else step * self._ease

    def _within_reach(self, step: Array) -> Array:
        far = float(np.abs(step).max())
        reach = REACH * self._equations.size_nm
        return step * (reach / far) if far > reach else step

    def _relax(self, ratio: float) -> None:
        """Less damping, by how much of what was hoped for was gained."""
        damping = self._damping * max(1 / 10, 1 - (2 * ratio - 1) ** 3)
        self._damping = max(damping / (30 if ratio > 0.75 else 1), LEAST_DAMPING)
        self._growth = 4.0

    def _polish(self, budget: Budget) -> None:
        """Least steps without damping, as long as they help."""
        for _ in range(POLISHES):
            worst_nm = self.worst_nm()
            if not self._floor_nm < worst_nm < NEAR * self._equations.size_nm:
                return
            if budget.is_spent():
                return
            off, jacobian = self._at
            trial = self.x + self._eased_step(least_step(self._eased(jacobian), -off))
            there = self._tangents(trial)
            if not np.abs(there.off).max() < worst_nm:
                return
            self.x, self._at = trial, there


def _square(off: Array) -> float:
    return float(off @ off)
