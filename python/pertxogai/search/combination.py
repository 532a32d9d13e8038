"""A sum of points with constant factors: a place, or the way from one place to another."""
from __future__ import annotations

from collections.abc import Mapping
from dataclasses import dataclass, field
from math import hypot

from pertxogai.search.arrays import Array


@dataclass(frozen=True)
class Combination:
    """The sum of the points of these numbers, each times its factor, and of a constant place in
    nanometres."""

    factors: Mapping[int, float] = field(default_factory=dict)
    x_nm: float = 0.0
    y_nm: float = 0.0

    def __add__(self, other: Combination) -> Combination:
        factors = dict(self.factors)
        for point, factor in other.factors.items():
            factors[point] = factors.get(point, 0.0) + factor
        kept = {point: factor for point, factor in factors.items() if factor}
        return Combination(kept, self.x_nm + other.x_nm, self.y_nm + other.y_nm)

    def __sub__(self, other: Combination) -> Combination:
        return self + other.times(-1.0)

    def length_nm(self, x: Array) -> float:
        """How long it is as a way, where the unknowns are x: the points' x and y first."""
        return hypot(*(start + sum(factor * float(x[2 * point + is_y])
                                   for point, factor in self.factors.items())
                       for is_y, start in enumerate((self.x_nm, self.y_nm))))

    def times(self, factor: float) -> Combination:
        """Each factor, and the constant, times a number."""
        factors = {point: each * factor for point, each in self.factors.items()}
        return Combination(factors, self.x_nm * factor, self.y_nm * factor)
