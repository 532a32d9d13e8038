"""The values that a drawing lacks: x or y of a point, a radius, a length, read off the places that
were found. What is free is told in whole micrometres, and what follows in whole nanometres."""
from __future__ import annotations

from collections.abc import Iterator, Sequence
from dataclasses import dataclass, replace
from fractions import Fraction

import numpy as np
from scipy import linalg

from pertxogai.drawing import (
    ORIGIN, Anchor, Arc, Circle, Constraint, Drawing, Length, Place, Point, PointRef, Radius,
    Segment, Sense, Shape, ShapeRef, Which, XDistance, YDistance)
from pertxogai.judging.measure import Solution
from pertxogai.search.arrays import Array
from pertxogai.search.equations import Equations
from pertxogai.search.rank import Free, wide
from pertxogai.search.unknowns import Unknowns

NM_OF_UM, NM = 1000, 1
"""The units in which values are told."""
RADIUS, CENTRE, SAME_POINT = 5.0, 2.0, 3.0
"""How much rather than another the radius of a rim is told, a centre, and the second coordinate of
a point of which the first one is."""
LEAST_STRETCH = 1e-2
"""Lengths that change by less with the free motions aren't told."""


def values_of(equations: Equations, x: Array, free: Sequence[Free]) -> tuple[Constraint, ...]:
    """A value in whole micrometres for each free motion: coordinates and radii."""
    return tuple(value_of(equations.unknowns, column, x, NM_OF_UM)
                 for column in told_best(equations.unknowns, free))


def lengths_of(equations: Equations, x: Array, free: Sequence[Free]) -> tuple[Constraint, ...]:
    """The same, but the lengths of segments first; none where there are too many motions."""
    unknowns, told = equations.unknowns, list[Constraint]()
    all_ways = wide(free, unknowns.count)
    if all_ways is None:
        return ()
    basis: Array = all_ways
    for shape in unknowns.drawing.geometry:
        if isinstance(shape, Segment) and not shape.outer and basis.shape[1]:
            stretch = stretch_of(unknowns, ShapeRef(shape.name), x, basis)
            if stretch.is_telling(LEAST_STRETCH * stretch.length_nm / equations.size_nm):
                told.append(Length(ShapeRef(shape.name), stretch.length_um(NM_OF_UM)))
                basis = basis @ linalg.null_space(stretch.by_motion[None, :])
    rest = Free(np.arange(unknowns.count), basis)
    return (*told, *values_of(equations, x, [rest]))


def value_of(unknowns: Unknowns, column: int, x: Array, unit_nm: int) -> Constraint:
    """An unknown as a constraint with its value, in so many nanometres whole."""
    value_um = _um(float(x[column]), unit_nm)
    points = len(unknowns.points)
    if column >= 2 * points:
        return Radius(ShapeRef(unknowns.rims[column - 2 * points]), value_um)
    point = unknowns.points[column // 2]
    if column % 2:
        return YDistance(ORIGIN, point, value_um, Sense.SIGNED)
    return XDistance(ORIGIN, point, value_um, Sense.SIGNED)


def told_best(unknowns: Unknowns, free: Sequence[Free]) -> Iterator[int]:
    """The unknowns that tell free motions best, one for each motion: by pivoting, with radii before
    centres, and these before other points."""
    weights = np.ones(unknowns.count)
    weights[2 * len(unknowns.points):] = RADIUS
    for ref, number in unknowns.number_of.items():
        if ref.which is Which.CENTRE:
            weights[2 * number:2 * number + 2] = CENTRE
    for each in free:
        yield from _told_best(each, weights, 2 * len(unknowns.points))


def _told_best(free: Free, weights: Array, coordinates: int) -> Iterator[int]:
    ways = free.ways.copy()
    for _ in range(ways.shape[1]):
        row = int((np.linalg.norm(ways, axis=1) * weights[free.columns]).argmax())
        column = int(free.columns[row])
        yield column
        if column < coordinates:
            weights[column ^ 1] *= SAME_POINT
        way = ways[row] / np.linalg.norm(ways[row])
        ways = ways - np.outer(ways @ way, way)


@dataclass(frozen=True)
class Stretch:
    """The length of a segment, and how it changes with each free motion."""

    length_nm: float
    by_motion: Array

    def length_um(self, unit_nm: int) -> Fraction:
        """The length in micrometres, of so many nanometres whole."""
        return _um(self.length_nm, unit_nm)

    def is_telling(self, least: float) -> bool:
        """Whether it is long enough to be told, and changes with a motion by more than that."""
        return self.length_nm > NM_OF_UM and float(np.abs(self.by_motion).max(initial=0.0)) > least


def stretch_of(unknowns: Unknowns, segment: ShapeRef, x: Array, basis: Array) -> Stretch:
    """The length of a segment where the unknowns are x, and how it changes."""
    way = unknowns.line(segment)[1]
    ends = np.array([way.x_nm, way.y_nm])
    motion = np.zeros((2, basis.shape[1]))
    for point, factor in way.factors.items():
        ends += factor * x[2 * point:2 * point + 2]
        motion += factor * basis[2 * point:2 * point + 2]
    length_nm = float(np.linalg.norm(ends))
    return Stretch(length_nm, ends @ motion / max(length_nm, 1.0))


# -- the drawing where it was found


def drawn_at(drawing: Drawing, places: Solution) -> Drawing:
    """The drawing, drawn where it was placed in the datum's frame: so what the drawing decides is
    decided as it lies there."""
    return replace(drawing, geometry=tuple(shape if shape.outer else _drawn_at(shape, places)
                                           for shape in drawing.geometry))


def _drawn_at(shape: Shape, places: Solution) -> Shape:
    def spot(drawn: Anchor, which: Which) -> Anchor:
        if isinstance(drawn, PointRef):
            return drawn
        x, y = places.spot(PointRef(shape.name, which))
        return Place(Fraction(x) / NM_OF_UM, Fraction(y) / NM_OF_UM)

    match shape:
        case Point(at=at):
            place = spot(at, Which.AT)
            assert isinstance(place, Place)
            return replace(shape, at=place)
        case Segment(start=start, end=end):
            return replace(shape, start=spot(start, Which.START), end=spot(end, Which.END))
        case Circle(centre=centre):
            radius_um = max(Fraction(1, NM_OF_UM), Fraction(places.radius(shape.name)) / NM_OF_UM)
            return replace(shape, centre=spot(centre, Which.CENTRE), radius_um=radius_um)
        case Arc(centre=centre, start=start, end=end):
            return replace(shape, centre=spot(centre, Which.CENTRE), start=spot(start, Which.START),
                           end=spot(end, Which.END))


def _um(value_nm: float, unit_nm: int) -> Fraction:
    """A length in micrometres, of so many nanometres whole."""
    return Fraction(round(value_nm / unit_nm) * unit_nm, NM_OF_UM)
