"""Found places as whole nanometres, for the package's own exact measure; and back."""
from __future__ import annotations

import numpy as np

from pertxogai.drawing import ORIGIN, Arc, Circle, Drawing, PointRef
from pertxogai.judging.measure import Solution
from pertxogai.search.arrays import Array
from pertxogai.search.unknowns import Unknowns

Whole = tuple[int, int]
"""x and y in whole nanometres."""


def solution_of(unknowns: Unknowns, x: Array, part: Drawing | None = None) -> Solution:
    """All points and radii in whole nanometres, in the datum's frame; or those of a part of the
    drawing."""
    drawing = part or unknowns.drawing
    points = {ref: _whole_point(unknowns, x, unknowns.leader(ref)) for ref in drawing.points()}
    radii = {shape.name: _whole_radius(unknowns, x, shape.name)
             for shape in drawing.geometry if isinstance(shape, (Circle, Arc))}
    return Solution(points, radii)


def unknowns_of(unknowns: Unknowns, solution: Solution) -> Array:
    """The unknowns where a solution in the datum's frame has them."""
    x = np.zeros(unknowns.count)
    for ref, number in unknowns.number_of.items():
        x[2 * number:2 * number + 2] = [float(each) for each in solution.spot(ref)]
    for name, column in unknowns.column_of.items():
        x[column] = float(solution.radius(name))
    return x


def _whole_point(unknowns: Unknowns, x: Array, leader: PointRef) -> Whole:
    if leader == ORIGIN:
        return 0, 0
    if leader in unknowns.given:
        drawn = unknowns.drawing.drawn(leader)
        return round(drawn.x_um * 1000), round(drawn.y_um * 1000)
    column = 2 * unknowns.number_of[leader]
    return round(float(x[column])), round(float(x[column + 1]))


def _whole_radius(unknowns: Unknowns, x: Array, name: str) -> int:
    column = unknowns.column_of.get(name)
    if column is None:
        return _drawn_radius(unknowns.drawing, name)
    return round(float(x[column]))


def _drawn_radius(drawing: Drawing, name: str) -> int:
    return round(drawing.drawn_radius_um(name) * 1000)
