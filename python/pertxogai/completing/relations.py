"""The relations that a drawing nearly has: joined, level, upright, square, parallel, equal,
touching. Whether they follow from what is told already isn't looked at here."""
from __future__ import annotations

from cmath import phase
from collections.abc import Callable, Iterator, Sequence
from dataclasses import dataclass
from enum import Enum
from itertools import combinations, pairwise
from math import degrees
from typing import TypeVar

from pertxogai.completing.figure import Figure, centre, ends
from pertxogai.drawing import (
    Arc, Circle, Coincident, Concentric, Constraint, Equal, Horizontal, Pair, Parallel,
    Perpendicular, PointOn, PointRef, Segment, ShapeRef, Tangent, Vertical, Which)
from pertxogai.drawing.places import UM_PER_MM

NEAR_DEGREES = 1.0
"""By how many degrees a direction that is nearly level, upright, square or parallel is off it."""
NEAR_PART = 0.01
"""Lengths and radii that differ by no more than this part are nearly equal; rims that are off a
touch by no more than this part of the radius nearly touch."""
HAIR = 1e-3
"""Nearer than this part of the drawing's size points are nearly one, or on a line."""
EXACT_MM, EXACT_DEGREES = 5e-6, 1e-5
"""What is off by no more holds: whole nanometres of the ends and the centres of two arcs."""
MOST_EDGES = 150
"""Of a drawing with more edges, only those are compared that share a corner."""
Sized = TypeVar("Sized", Segment, Circle, Arc)


class Unit(Enum):
    """What an amount counts; the values are for a report."""

    DEGREES = "degrees"
    MM = "mm"


@dataclass(frozen=True)
class Relation:
    """What a drawing nearly has, as the constraint that would say so, and how far it is off."""

    constraint: Constraint
    off: float
    unit: Unit = Unit.MM

    def holds(self) -> bool:
        """Whether it is off by the rounding of whole nanometres alone."""
        return self.off <= (EXACT_MM if self.unit is Unit.MM else EXACT_DEGREES)


def relations(figure: Figure) -> Iterator[Relation]:
    """The relations that a placed drawing nearly has, in a designer's order."""
    yield from _joined(figure)
    yield from levels(figure, NEAR_DEGREES)
    for kind in (_square, _parallel, _equal, _touching, _on_an_edge):
        yield from kind(figure)


def _off_um(constraint: Constraint, off_um: float) -> Relation:
    return Relation(constraint, off_um / UM_PER_MM)


# -- points


def _joined(figure: Figure) -> Iterator[Relation]:
    """Points that are nearly one, and aren't told to be."""
    for first, second in _near(figure, HAIR * figure.size_um):
        if first.shape != second.shape:
            yield _off_um(_meeting(first, second), figure.apart_um(first, second))


def _near(figure: Figure, near_um: float) -> Iterator[tuple[PointRef, PointRef]]:
    """Each two points that are so near to each other."""
    by_x = sorted(figure.points, key=lambda ref: figure.at(ref).real)
    for place, first in enumerate(by_x):
        for second in by_x[place + 1:]:
            if figure.at(second).real - figure.at(first).real > near_um:
                break
            if figure.apart_um(first, second) <= near_um:
                yield first, second


def _meeting(first: PointRef, second: PointRef) -> Constraint:
    if first.which is second.which is Which.CENTRE:
        return Concentric(ShapeRef(first.shape), ShapeRef(second.shape))
    return Coincident(first, second)


def _on_an_edge(figure: Figure) -> Iterator[Relation]:
    """Points that lie nearly on an edge, between its ends."""
    hair_um = HAIR * figure.size_um
    for edge in figure.edges[:MOST_EDGES]:
        own = {figure.leader(end) for end in ends(edge)}
        for point in figure.points:
            if figure.leader(point) in own:
                continue
            beside = figure.beside(point, edge)
            off_um = abs(beside.imag) * figure.length_um(edge)
            if off_um <= hair_um and 0 < beside.real < 1:
                yield _off_um(PointOn(point, ShapeRef(edge.name)), off_um)


# -- directions


def levels(figure: Figure, degrees_off: float) -> Iterator[Relation]:
    """Edges within so many degrees of an axis, then the centres of circles on one level or one
    above the other."""
    for edge in figure.edges:
        yield from _along_an_axis(figure.way(edge), ShapeRef(edge.name), degrees_off)
    along_x = sorted(map(centre, figure.circles), key=lambda ref: figure.at(ref).real)
    along_y = sorted(map(centre, figure.circles), key=lambda ref: figure.at(ref).imag)
    for first, second in dict.fromkeys((*pairwise(along_x), *pairwise(along_y))):
        if figure.apart_um(first, second) > HAIR * figure.size_um:
            yield from _along_an_axis(figure.at(second) - figure.at(first), Pair(first, second),
                                      degrees_off)


def _along_an_axis(way: complex, of: ShapeRef | Pair, degrees_off: float) -> Iterator[Relation]:
    turn = degrees(phase(way)) % 180 if way else 45.0
    if min(turn, 180 - turn) <= degrees_off:
        yield Relation(Horizontal(of), min(turn, 180 - turn), Unit.DEGREES)
    elif abs(turn - 90) <= degrees_off:
        yield Relation(Vertical(of), abs(turn - 90), Unit.DEGREES)


def _square(figure: Figure) -> Iterator[Relation]:
    """Edges that share a corner, at a right angle there."""
    at: dict[PointRef, list[Segment]] = {}
    for edge in figure.edges:
        for end in ends(edge):
            at.setdefault(figure.leader(end), []).append(edge)
    for edges in at.values():
        for first, second in combinations(edges, 2):
            off = abs(abs(figure.turn(first, second)) - 90)
            if off <= NEAR_DEGREES:
                yield Relation(Perpendicular(ShapeRef(first.name), ShapeRef(second.name)), off,
                               Unit.DEGREES)


def _parallel(figure: Figure) -> Iterator[Relation]:
    """Edges that share no corner and run one way, or against each other: each with the first of
    those that run as it does."""
    first_of: list[Segment] = []
    for edge in figure.edges[:MOST_EDGES]:
        for first in first_of:
            turn = figure.turn(first, edge) % 180
            off = min(turn, 180 - turn)
            if off <= NEAR_DEGREES:
                if figure.corner(first, edge) is None:
                    yield Relation(Parallel(ShapeRef(first.name), ShapeRef(edge.name)), off,
                                   Unit.DEGREES)
                break
        else:
            first_of.append(edge)


# -- sizes


def _equal(figure: Figure) -> Iterator[Relation]:
    """Circles, arcs and edges of one size: each with the first of those that are as large."""
    yield from _equal_of(figure.circles, figure.radius_um)
    yield from _equal_of(figure.arcs, figure.radius_um)
    yield from _equal_of(figure.edges[:MOST_EDGES], figure.length_um)


def _equal_of(shapes: Sequence[Sized], size_of: Callable[[Sized], float]) -> Iterator[Relation]:
    first_of: list[Sized] = []
    for shape in shapes:
        size = size_of(shape)
        for first in first_of:
            off_um = abs(size - size_of(first))
            if off_um <= NEAR_PART * size:
                yield _off_um(Equal(ShapeRef(first.name), ShapeRef(shape.name)), off_um)
                break
        else:
            first_of.append(shape)


def _touching(figure: Figure) -> Iterator[Relation]:
    """Edges that touch a circle or an arc, and circles and arcs that touch each other."""
    rims: list[Circle | Arc] = [*figure.circles, *figure.arcs]
    for rim in rims:
        radius_um = figure.radius_um(rim)
        for edge in figure.edges[:MOST_EDGES]:
            off_um = abs(figure.off_um(centre(rim), edge) - radius_um)
            if off_um <= NEAR_PART * radius_um and 0 <= figure.beside(centre(rim), edge).real <= 1:
                yield _off_um(Tangent(ShapeRef(edge.name), ShapeRef(rim.name)), off_um)
    for one, other in combinations(rims, 2):
        radii_um = figure.radius_um(one), figure.radius_um(other)
        apart_um = figure.apart_um(centre(one), centre(other))
        off_um = min(abs(apart_um - sum(radii_um)), abs(apart_um - abs(radii_um[0] - radii_um[1])))
        if off_um <= NEAR_PART * min(radii_um) and apart_um > HAIR * figure.size_um:
            yield _off_um(Tangent(ShapeRef(one.name), ShapeRef(other.name)), off_um)
