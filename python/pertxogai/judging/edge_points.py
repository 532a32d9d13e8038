"""Points that lie on an edge: each is drawn between the ends of the edge, or beyond them."""
from __future__ import annotations

from collections.abc import Iterator
from typing import NamedTuple

from pertxogai.classes import Classes
from pertxogai.drawing import Collinear, Drawing, Midpoint, PointOn, PointRef, Segment
from pertxogai.exact import Vector, between, dot, square
from pertxogai.judging.edges import Chord, Ends, ends_of, leaders_of

AT_END_NM = 500
"""What lies no further beyond an end lies there: in whole micrometres it is 0."""


class EdgePoint(NamedTuple):
    """A point that a constraint puts on an edge, and that is drawn between the edge's ends."""

    point: PointRef
    edge: Segment


def edge_points(drawing: Drawing) -> Iterator[EdgePoint]:
    """Those of a drawing, whatever its dimensions are. Construction lines, and lines of other
    parts, count as endless."""
    edges = {each.name: each for each in drawing.geometry
             if isinstance(each, Segment) and not (each.construction or each.outer)}
    for each in drawing.constraints:
        if isinstance(each, PointOn) and each.curve.name in edges:
            found = EdgePoint(each.point, edges[each.curve.name])
            if not is_beyond(_drawn(drawing, found.edge), drawing.scene.drawn_nm(found.point)):
                yield found


class Endings:
    """Which segments end on the lines of others, as the constraints say."""

    def __init__(self, drawing: Drawing) -> None:
        self._lines = _lines(drawing)
        self._ends: dict[str, Ends] = {}
        self._points: dict[str, set[PointRef]] = {}
        for each in drawing.geometry:
            if isinstance(each, Segment):
                self._ends[each.name] = leaders_of(drawing, each)
                self._points_on(each.name).update(self._ends[each.name])
        for said in drawing.constraints:
            if isinstance(said, PointOn | Midpoint):
                line = said.curve if isinstance(said, PointOn) else said.segment
                self._points_on(line.name).add(drawing.meetings.leader(said.point))

    def _points_on(self, line: str) -> set[PointRef]:
        """The points on the line of a segment, by those that stand for all that are one."""
        return self._points.setdefault(self._lines.leader(line), set())

    def meet(self, first: str, second: str) -> bool:
        """Whether one of two segments ends on the line of the other: they can't cross but in that
        end."""
        return not (self._points_on(first).isdisjoint(self._ends[second])
                    and self._points_on(second).isdisjoint(self._ends[first]))


def _lines(drawing: Drawing) -> Classes[str]:
    """The names of segments in classes: those that lie on one line."""
    lines = Classes[str]()
    for said in drawing.constraints:
        if isinstance(said, Collinear):
            lines.join(said.first.name, said.second.name)
    return lines


def is_beyond(edge: Chord, spot: Vector) -> bool:
    """Whether a place, or its foot on the line of an edge, lies beyond an end of that edge."""
    along, long = dot(edge.way, between(edge.start, spot)), square(edge.way)
    over = max(-along, along - long)
    return over > 0 and over * over > AT_END_NM ** 2 * long


def _drawn(drawing: Drawing, edge: Segment) -> Chord:
    start, end = map(drawing.scene.drawn_nm, ends_of(edge))
    return Chord(start, end)
