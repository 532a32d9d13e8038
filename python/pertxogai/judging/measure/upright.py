"""Printed places turned to the drawing's own datum: its origin at 0 0, its x axis to the right."""

from __future__ import annotations

from collections.abc import Mapping
from fractions import Fraction
from math import isqrt

from pertxogai.drawing import PointRef
from pertxogai.judging.measure.solution import PointNm, Solution

_SCALE = 10 ** 12
"""How finely the direction of the x axis is taken: to this part of its length."""


def upright(solution: Solution) -> Solution:
    """The same places in the datum's frame, in nm. Places in that frame already stay as printed;
    others are turned by fractions, to a thousandth of a nm at 1 km."""
    frame = solution.frame
    right = Fraction(frame.right[0]), Fraction(frame.right[1])
    if right[1] == 0 and right[0] > 0:
        moved = {ref: _less(spot, frame.origin) for ref, spot in solution.points.items()}
        return Solution(moved, solution.radii)
    return Solution(_turn(solution.points, frame.origin, right), solution.radii)


def _less(spot: PointNm, origin: PointNm) -> PointNm:
    """A place told from another."""
    return spot[0] - origin[0], spot[1] - origin[1]


def _turn(points: Mapping[PointRef, PointNm], origin: PointNm, right: tuple[Fraction, Fraction]
            ) -> dict[PointRef, PointNm]:
    """Places told from the origin, along the x axis and across it."""
    square = right[0] ** 2 + right[1] ** 2
    length = Fraction(isqrt(square.numerator * square.denominator * _SCALE ** 2),
                      square.denominator * _SCALE)
    along, across = right[0] / length, right[1] / length
    turned: dict[PointRef, PointNm] = {}
    for ref, spot in points.items():
        x, y = _less(spot, origin)
        turned[ref] = (x * along + y * across, y * along - x * across)
    return turned
