"""Edges that turn back on each other: where they meet they leave the point in one direction, so
that the angle between them is 0, as at a fillet whose start and end are swapped.

Only edges of the part count, and only points in which just two of them end. Two segments that turn
back lie on one another, which a designer may draw to dimension a part of an edge. Two arcs may turn
back because they are meant to, as at the notch of a heart: they count only where just one of them
turns back at both of its ends."""
from __future__ import annotations

from collections import Counter
from collections.abc import Callable, Collection, Iterator
from dataclasses import dataclass, field
from typing import NamedTuple

from pertxogai.drawing import Arc, Drawing, PointRef, Segment, Which
from pertxogai.exact import Vector, between, cross, dot, square
from pertxogai.judging.edges import Edges, ends_of
from pertxogai.judging.rims import TOUCHING_NM

SLIGHT = 1000
"""Two ways are one only if the end of the shorter lies aside by no more than such a part of it."""

Spots = Callable[[PointRef], Vector]
"""Where a point is drawn, or placed, in nm."""


@dataclass(frozen=True)
class Cusp:
    """Two edges that turn back on each other. at: where they meet, as the end of the first.
    swapped: the arc of them that turns back at both of its ends, as it is placed and as it is
    drawn, so that its start and end may be swapped."""

    shapes: tuple[str, str]
    at: PointRef
    swapped: str | None = field(default=None, compare=False)

    def text(self) -> str:
        """One line for the designer."""
        told = f"{' and '.join(self.shapes)} turn back on each other at {self.at}"
        if self.swapped is None:
            return f"{told}: the angle between them is 0"
        return f"{told}: are the start and end of {self.swapped} swapped?"


class _Corner(NamedTuple):
    """The ends of two edges in one point. one, other: these edges; at, there: their ends."""

    one: Segment | Arc
    at: PointRef
    other: Segment | Arc
    there: PointRef

    def arcs(self) -> Iterator[str]:
        """Which of the two are arcs."""
        return (each.name for each in (self.one, self.other) if isinstance(each, Arc))

    def ways(self, spots: Spots) -> tuple[Vector, Vector]:
        """The directions in which the two leave the point."""
        return _way_out(self.one, self.at, spots), _way_out(self.other, self.there, spots)


class Corners:
    """The points in which just two edges of a part end, one of them an arc, whatever its dimensions
    are."""

    def __init__(self, drawing: Drawing) -> None:
        through: dict[PointRef, list[tuple[Segment | Arc, PointRef]]] = {}
        for side in drawing.geometry:
            if isinstance(side, Segment | Arc) and not (side.construction or side.outer):
                for end in ends_of(side):
                    through.setdefault(drawing.meetings.leader(end), []).append((side, end))
        met = (_Corner(*ends[0], *ends[1]) for ends in through.values() if len(ends) == 2)
        self._met = [each for each in met if any(each.arcs()) and each.one is not each.other]

    def cusps(self, edges: Edges) -> Iterator[Cusp]:
        """Those of a placed drawing that has these corners. Raises MissingPlace."""
        back = [each for each in self._met if _is_one_way(*each.ways(edges.spot))]
        drawn_back = [each for each in back if dot(*each.ways(edges.drawing.scene.drawn_nm)) > 0]
        twice, drawn_twice = _at_both_ends(back), _at_both_ends(drawn_back)
        for each in back:
            arcs = [*each.arcs()]
            culprits = [name for name in arcs if name in twice]
            if len(arcs) == 1 or len(culprits) == 1:
                swapped = next((name for name in culprits if name in drawn_twice), None)
                yield Cusp((each.one.name, each.other.name), each.at, swapped)


def _at_both_ends(back: Collection[_Corner]) -> frozenset[str]:
    """The arcs that turn back at both of their ends."""
    counts = Counter(name for each in back for name in each.arcs())
    return frozenset(name for name, count in counts.items() if count == 2)


def _way_out(side: Segment | Arc, end: PointRef, spots: Spots) -> Vector:
    """The direction in which an edge leaves one of its ends: of a segment the way to its other end,
    of an arc as long as its radius."""
    here = spots(end)
    if isinstance(side, Segment):
        start, there = ends_of(side)
        return between(here, spots(there if end == start else start))
    x, y = between(spots(PointRef(side.name, Which.CENTRE)), here)
    return (-y, x) if end.which is Which.START else (y, -x)


def _is_one_way(first: Vector, second: Vector) -> bool:
    """Whether two ways run in one direction, as exactly as places are known."""
    shorter, longer = sorted((square(first), square(second)))
    aside = cross(first, second) ** 2
    return (dot(first, second) > 0 and aside <= TOUCHING_NM ** 2 * longer
            and SLIGHT ** 2 * aside <= shorter * longer)
