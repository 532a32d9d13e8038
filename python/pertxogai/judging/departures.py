"""Where the placed shape departs from the drawn one: edges turned about or shrunk to nothing,
corners on the other side, crossings, points beyond the ends of edges; what a constraint puts on a
side of a segment, on the other one; and, however it is drawn, which edges turn back on each other.

All is by whole numbers of nanometres. A drawing that isn't tied to the datum's directions is
compared as it lies once it has been turned, as a whole, the way that fits best."""
from __future__ import annotations

from collections.abc import Collection, Iterator, Sequence
from dataclasses import dataclass
from enum import Enum
from functools import cached_property

from pertxogai.drawing import Arc, Circle, Drawing, Segment
from pertxogai.exact import Vector, cross, dot, square
from pertxogai.judging.cusps import Corners, Cusp
from pertxogai.judging.edge_points import Endings, edge_points, is_beyond
from pertxogai.judging.edges import (
    LEAST_NM, Chord, Edge, Edges, boxes_meet, corners, leaders_of)
from pertxogai.judging.insides import Loops
from pertxogai.judging.measure.solution import Solution
from pertxogai.judging.rims import Rim, Round
from pertxogai.judging.sides import Beside, Sided, beside, sided


class DepartureKind(Enum):
    """How a placed shape differs from the drawn one."""

    TURNED = "runs the other way than it is drawn"
    GONE = "has no length, but is drawn with one"
    OTHER_SIDE = "turns the other way than it is drawn"
    CROSSES = "cross, but are drawn apart"
    LEAVES = "is drawn on the other side of the outline"
    BEYOND = "lies beyond the end of"
    ACROSS = "is drawn on the other side of"


@dataclass(frozen=True)
class Departure:
    """One departure from the drawn orientation, and the edges that it concerns."""

    departure: DepartureKind
    shapes: tuple[str, ...]

    def text(self) -> str:
        """One line for the designer."""
        match self.departure:
            case DepartureKind.LEAVES:
                thing, edge = self.shapes
                return f"{thing} {self.departure.value}, at {edge}"
            case DepartureKind.BEYOND:
                point, edge = self.shapes
                return f"{point} {self.departure.value} {edge}, but is drawn between its ends"
            case DepartureKind.ACROSS:
                thing, edge = self.shapes
                return f"{thing} {self.departure.value} {edge}"
            case DepartureKind.OTHER_SIDE:
                return f"the corner of {' and '.join(self.shapes)} {self.departure.value}"
            case _:
                return f"{' and '.join(self.shapes)} {self.departure.value}"


Warned = Departure | Cusp
"""What is warned of: a departure, or edges that turn back on each other, drawn so or not."""


def warnings(drawing: Drawing, solution: Solution, free: bool = False) -> tuple[Warned, ...]:
    """Everything that is warned of in a placed drawing, edge by edge. `free`: whether nothing ties
    the drawing to the datum's directions, so that all of it may have turned."""
    return Comparison(drawing, solution.radii).warnings(Edges(drawing, solution), free)


class Comparison:
    """What of a drawing may depart from how it is drawn, whatever its dimensions are. sized: the
    circles and arcs of which a radius is placed."""

    def __init__(self, drawing: Drawing, sized: Collection[str]) -> None:
        self._drawing = drawing
        self._segments = [each for each in drawing.geometry if isinstance(each, Segment)]
        self._outline = [each for each in self._segments if not each.construction]
        self._rims = [each for each in drawing.geometry if isinstance(each, Circle | Arc)
                      and not each.construction and each.name in sized]
        self._edge_points = [*edge_points(drawing)]
        self._endings = Endings(drawing)
        self._ends = [leaders_of(drawing, each) for each in self._outline]
        self._corners = corners(self._ends)
        self._loops = Loops([*self._ends, *(leaders_of(drawing, each) if isinstance(each, Arc)
                                            else None for each in self._rims)])

    @cached_property
    def _met(self) -> Corners:
        return Corners(self._drawing)

    @cached_property
    def _sided(self) -> tuple[Sided, ...]:
        return tuple(sided(self._drawing))

    @cached_property
    def _beside(self) -> tuple[Beside, ...]:
        return tuple(beside(self._drawing))

    def warnings(self, edges: Edges, free: bool) -> tuple[Warned, ...]:
        """Everything that is warned of in a placed drawing, which may differ from this one by its
        dimensions. Raises MissingPlace."""
        found = self.departures(edges, free)
        return (*found, *self._across(edges, found), *self._met.cusps(edges))

    def _across(self, edges: Edges, found: Sequence[Departure]) -> Iterator[Departure]:
        """What lies on the other side of a segment or a point than it is drawn. Of a segment that
        runs the other way than it is drawn both sides are the other ones, so that tells nothing."""
        turned = {each.shapes for each in found if each.departure is DepartureKind.TURNED}
        for each in self._sided:
            if (each.line.name,) not in turned and each.is_across(edges):
                yield Departure(DepartureKind.ACROSS, (each.name, each.line.name))
        across = ((each.name, each.of) for each in self._beside
                  if (each.edge(),) not in turned and each.is_across(edges))
        for names in dict.fromkeys(across):
            yield Departure(DepartureKind.ACROSS, names)

    def departures(self, edges: Edges, free: bool) -> tuple[Departure, ...]:
        """Every departure of such a drawing but of sides by a constraint. Raises MissingPlace."""
        outline = [*map(edges.of, self._outline)]
        rims = [Rim.of(edges.drawing, edges.solution, each) for each in self._rims]
        return (*_reversals([*map(edges.of, self._segments)], free), *_gone(outline),
                *self._turned(outline), *self._crossings(outline), *_cut_rims(outline, rims),
                *(Departure(DepartureKind.LEAVES, each)
                  for each in self._loops.leavers([*outline, *rims])), *self._beyond(edges))

    def _turned(self, outline: Sequence[Edge]) -> Iterator[Departure]:
        """The corners that turn to the other side than they are drawn."""
        for first, second in self._corners:
            one, other = outline[first], outline[second]
            if one.turns(other):
                yield Departure(DepartureKind.OTHER_SIDE, (one.name, other.name))

    def _crossings(self, outline: Sequence[Edge]) -> Iterator[Departure]:
        """The edges that cross, are drawn apart, don't end in one point, and of which neither ends
        on the other: by the rounding that may lie on either side of it."""
        for first, second in sorted(boxes_meet([each.placed for each in outline])):
            one, other = outline[first], outline[second]
            if one.placed.crosses(other.placed) and not one.drawn.crosses(other.drawn):
                names = one.name, other.name
                if (set(self._ends[first]).isdisjoint(self._ends[second])
                        and not self._endings.meet(*names)):
                    yield Departure(DepartureKind.CROSSES, names)

    def _beyond(self, edges: Edges) -> Iterator[Departure]:
        """The points that lie beyond the end of an edge that they are drawn on."""
        for each in self._edge_points:
            if is_beyond(edges.of(each.edge).placed, edges.spot(each.point)):
                yield Departure(DepartureKind.BEYOND, (str(each.point), each.edge.name))


def _reversals(edges: Sequence[Edge], free: bool) -> Iterator[Departure]:
    """The edges that run against their drawn way, once that is turned by the turn of all."""
    turn = turn_of_all(edges, free)
    for edge in edges:
        if edge.runs(turn) < 0:
            yield Departure(DepartureKind.TURNED, (edge.name,))


def _gone(outline: Sequence[Edge]) -> Iterator[Departure]:
    """The edges that are placed without a length, and drawn with one."""
    for edge in outline:
        if square(edge.placed.way) < LEAST_NM ** 2 <= square(edge.drawn.way):
            yield Departure(DepartureKind.GONE, (edge.name,))


def turn_of_all(edges: Sequence[Edge], free: bool) -> Vector:
    """By what a drawing is turned as a whole: where it is free, the turn after which the drawn
    edges are nearest to the placed ones, by least squares; its cosine and sine, times one number
    above 0. No turn where it isn't free, or none fits better than another."""
    ways = [(edge.drawn.way, edge.placed.way) for edge in edges if free]
    turn = sum(dot(*each) for each in ways), sum(cross(*each) for each in ways)
    return turn if any(turn) else (1, 0)


def _cut_rims(outline: Sequence[Edge], rims: Sequence[Rim]) -> Iterator[Departure]:
    """The circles and arcs that cross an edge or one another, and are drawn apart: as a hole that
    leaves its plate."""
    things: list[Edge | Rim] = [*outline, *rims]
    placed: list[Chord | Round] = [each.placed for each in things]
    for first, second in sorted(boxes_meet(placed)):
        one, other = things[first], things[second]
        if isinstance(other, Rim) and _cross(one.placed, other.placed):
            if not _cross(one.drawn, other.drawn):
                yield Departure(DepartureKind.CROSSES, (one.name, other.name))


def _cross(one: Chord | Round, rim: Round) -> bool:
    return rim.is_cut_by(one) if isinstance(one, Chord) else rim.crosses(one)
