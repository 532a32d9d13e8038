"""What the program's own completion of a spelled sketch adds, told back in a designer's words, with
the values that these have where the drawing is placed."""
from __future__ import annotations

from collections.abc import Iterator

from pertxogai import language
from pertxogai.completing.dimensions import (
    angles_of, direction, height_of, nothing_um, run_x, run_y)
from pertxogai.completing.figure import Figure, centre, ends
from pertxogai.completing.values import round_um
from pertxogai.drawing import (
    ORIGIN, Constraint, Distance, Length, PointRef, Radius, Segment, ShapeRef)
from pertxogai.judging import Names
from pertxogai.spelling.facts import DATUM


class Words:
    """A designer's words for the constraints of one spelled sketch."""

    def __init__(self, names: Names, figure: Figure) -> None:
        self._names, self._figure = names, figure
        self._headings = {each.name: each for each in names.spelled.headings}
        self._edges = {edge.name: edge for edge in figure.edges}
        self._arcs = {frozenset({figure.leader(centre(arc)), figure.leader(end)}): arc
                      for arc in figure.arcs for end in ends(arc)}
        self._sides = {frozenset(map(figure.leader, ends(edge))): edge for edge in figure.edges}
        self._on: dict[str, PointRef] = {}
        for each in names.spelled.sketch.constraints:
            if isinstance(each, language.On):
                point = names.point(each.point)
                if point is not None:
                    self._on.setdefault(each.carrier, point)

    def of(self, constraint: language.Constraint) -> Iterator[Constraint]:
        """The words for a constraint; none where a designer has none."""
        match constraint:
            case language.Distance(first, second) | language.On(first, second):
                yield from self._apart(first, second)
            case language.Angle(first, second):
                yield from self._turned(first, second)

    def _apart(self, first: str, second: str) -> Iterator[Constraint]:
        """How far two points, or a point and a line, are apart."""
        one, other = self._names.point(first), self._names.point(second)
        if one is not None and other is not None:
            yield self._between(one, other)
        elif one is not None:
            yield from self._beside(one, second)
        elif other is not None:
            yield from self._beside(other, first)

    def _between(self, first: PointRef, second: PointRef) -> Constraint:
        """The radius of an arc, the length of an edge, or the distance of two points."""
        both = frozenset(map(self._figure.leader, (first, second)))
        value_um = round_um(max(self._figure.apart_um(first, second), nothing_um(self._figure)))
        if both in self._arcs:
            return Radius(ShapeRef(self._arcs[both].name), value_um)
        if both in self._sides:
            return Length(ShapeRef(self._sides[both].name), value_um)
        return Distance(first, second, value_um)

    def _beside(self, point: PointRef, line: str) -> Iterator[Constraint]:
        """How far a point is from a line: x or y where that is level or upright."""
        edge = self._edge(line)
        if edge is not None:
            yield height_of(self._figure, point, edge)
        heading = self._headings.get(line)
        if heading is None or heading.quarters is None or heading.frame != DATUM:
            return
        is_datum = heading.rail is not None and heading.rail.datum()
        base = ORIGIN if is_datum else self._on.get(line)
        if base is not None:
            yield (run_x if heading.quarters % 2 else run_y)(self._figure, base, point)

    def _turned(self, first: str, second: str) -> Iterator[Constraint]:
        """The angle of two edges, or the direction of one."""
        one, other = self._edge(first), self._edge(second)
        if one is not None and other is not None:
            yield from angles_of(self._figure, one, other)
        for edge in (one, other):
            if edge is not None:
                yield direction(self._figure, edge)

    def _edge(self, line: str) -> Segment | None:
        """The edge that a line of the sketch is."""
        track = self._names.spelled.tracks.get(line)
        return self._edges.get(track.name) if isinstance(track, ShapeRef) else None
