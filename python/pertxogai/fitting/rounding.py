"""By how much what is measured may be off since places are whole nanometres."""
from __future__ import annotations

from math import ceil, degrees

from pertxogai.drawing import AngleBetween, ParallelDistance, PointLineDistance, ShapeRef, Valued
from pertxogai.exact import Vector, between, dot, root, square
from pertxogai.fitting.toleranced import MILLIONTHS
from pertxogai.judging.measure.placed import Placed

NOISE = 20
"""Millionths of a millimetre or a degree: what moves a check by no more is the rounding of places
to whole nanometres, and of angles to ratios."""
OFF_NM = 1.5
"""The rounding of a point, with as much again for that of the numbers behind it."""


def noise_of(asked: Valued, placed: Placed) -> int:
    """The rounding of a measure, in millionths: `NOISE`, or more where short segments are prolonged
    or turn. Raises MissingPlace."""
    match asked:
        case AngleBetween(first, second):
            turned = sum(2 * OFF_NM / _length(placed, line) for line in (first, second))
            return max(NOISE, ceil(degrees(turned) * MILLIONTHS))
        case PointLineDistance(point, line):
            return max(NOISE, ceil(_aside(placed, line, placed.spot(point))))
        case ParallelDistance(first, second):
            if not placed.line(second).ends:
                first, second = second, first
            told = placed.line(second)
            other = told.start[0] + told.way[0], told.start[1] + told.way[1]
            return max(NOISE, *(ceil(_aside(placed, first, end)) for end in (told.start, other)))
        case _:
            return NOISE


def _length(placed: Placed, line: ShapeRef) -> float:
    """The length of a segment, in nanometres; an axis has the greatest."""
    there = placed.line(line)
    return float(root(square(there.way))) if there.ends else float("inf")


def _aside(placed: Placed, line: ShapeRef, spot: Vector) -> float:
    """The rounding of the distance of a place from a line, in nanometres: of the place, and of both
    ends, by how far beyond them it lies."""
    there = placed.line(line)
    if not there.ends:
        return OFF_NM
    along = float(dot(there.way, between(there.start, spot)) / square(there.way))
    return OFF_NM * (1 + abs(along) + abs(1 - along))
