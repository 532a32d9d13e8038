"""The outline beside another: each edge so far from the one that it goes with. Which lines hold it
there is chosen by rank, by numbers (`held`); what comes of them the program says."""
from __future__ import annotations

import math
from collections.abc import Iterator, Sequence
from dataclasses import dataclass, replace
from fractions import Fraction
from itertools import pairwise

from pertxogai.board.edges import Edge, Round, Straight, crossed, edge_of, way
from pertxogai.board.held import Words, chosen, placed_by_numbers
from pertxogai.board.line_reader import asked, asking
from pertxogai.board.mapping import PointUm, numbers, rounded
from pertxogai.board.more_lines import with_shapes
from pertxogai.board.named_value import named
from pertxogai.board.new_names import Figure, free_name
from pertxogai.board.typed import value_word
from pertxogai.drawing import (
    Anchor, Arc, Circle, Distance, Drawing, Place, PointRef, Segment, Shape, Tangent, Which,
    WordFault)
from pertxogai.drawing.numbers import mm_text

ENDS = Which.START, Which.END


@dataclass(frozen=True)
class Run:
    """An edge of an outline, as it is gone along: from its start to its end, or back."""

    name: str
    is_back: bool

    def end(self, is_last: bool) -> PointRef:
        """The end with which it begins, or the last one."""
        return PointRef(self.name, ENDS[is_last is not self.is_back])


@dataclass(frozen=True)
class Outline:
    """Edges that go on from one to the next; of a closed one the last goes on to the first."""

    runs: tuple[Run, ...]
    is_closed: bool

    def joints(self) -> Iterator[tuple[Run, Run]]:
        """Each edge with the one that it goes on to."""
        yield from pairwise(self.runs)
        if self.is_closed:
            yield self.runs[-1], self.runs[0]


def outline_of(drawing: Drawing, names: Sequence[str]) -> Outline:
    """The outline that some segments and arcs make. Raises WordFault where they make none."""
    if len(set(names)) != len(names) or not names:
        raise WordFault("nothing", "is selected that has an outline: select edges that join")
    left = {name: Run(name, False) for name in names}
    runs = [left.pop(_first(drawing, names))]
    leader = drawing.meetings.leader
    if len(names) > 1 and not _at(drawing, left, leader(runs[0].end(True))):
        runs[0] = replace(runs[0], is_back=True)
    while left:
        at = leader(runs[-1].end(True))
        found = _at(drawing, left, at)
        if len(found) != 1:
            raise WordFault(runs[-1].name, "doesn't go on to one edge alone: select an outline")
        following = left.pop(found[0])
        runs.append(replace(following, is_back=leader(following.end(False)) != at))
    is_closed = len(runs) > 1 and leader(runs[-1].end(True)) == leader(runs[0].end(False))
    return Outline(tuple(runs), is_closed)


def _first(drawing: Drawing, names: Sequence[str]) -> str:
    """The edge to begin with: one with a loose end, where there is one."""
    runs = {name: Run(name, False) for name in names}
    for name in names:
        for end in ENDS:
            at = drawing.meetings.leader(PointRef(name, end))
            if len(_at(drawing, runs, at)) == 1:
                return name
    return names[0]


def _at(drawing: Drawing, runs: dict[str, Run], point: PointRef) -> list[str]:
    """The edges among some that end in a point."""
    return [name for name in runs
            if any(drawing.meetings.leader(PointRef(name, end)) == point for end in ENDS)]


@dataclass(frozen=True)
class Offset:
    """Draws the outline beside some edges: so far from them, as it is typed, on the side on which a
    place lies. A circle's is a circle round the same centre."""

    shapes: tuple[str, ...]
    size: str
    at: Place

    def on(self, drawing: Drawing) -> Drawing:
        """The drawing with it. Raises WordFault where they make no outline, or there is no room."""
        size, shown = self._size(drawing), placed_by_numbers(drawing)
        edges = [edge_of(shown, name) for name in self.shapes]
        if len(edges) == 1 and isinstance(edges[0], Round) and not edges[0].is_arc:
            return self._circle(drawing, edges[0], shown.drawn_radius_um(edges[0].name), size)
        if any(isinstance(each, Round) and not each.is_arc for each in edges):
            raise WordFault(self.shapes[0], "and a circle make no outline: offset a circle alone")
        outline = outline_of(drawing, self.shapes)
        side = self._side(shown, outline)
        drawn = _Beside(drawing, outline, float(size) * side)
        placed = _Beside(shown, outline, float(size) * side)
        placed.check()
        names = drawn.names()
        scene = with_shapes(replace(_outer(placed.drawing), constraints=()), placed.shapes(names))
        orders = _orders(drawing, outline, names, mm_text(size), placed)
        found = min((chosen(scene, order) for order in orders), key=lambda each: each.left)
        made = with_shapes(drawing, drawn.shapes(names))
        made, lines = named(made, found.lines, "distance", "Offset", value_word(self.size))
        for words in lines:
            is_plain = words[0] == "distance" and lines is found.lines
            made = asking(made, [*words[:-1], *value_word(self.size).split()] if is_plain
                          else list(words))
        return made

    def _size(self, drawing: Drawing) -> Fraction:
        """The size as it is typed, in micrometres. Raises WordFault where it isn't a length."""
        name = next(iter(self.shapes), "")
        edge = drawing.scene.points(name)[:1] if drawing.has(name) else ()
        points = [*map(str, edge), "Origin"]
        if len(points) < 2:
            raise WordFault("nothing", "is selected that has an outline: select edges that join")
        (found,) = asked(drawing, ["distance", *points, value_word(self.size)])
        assert isinstance(found, Distance)
        return found.value_um

    def _circle(self, drawing: Drawing, rim: Round, own_um: Fraction, size: Fraction) -> Drawing:
        """The drawing with a circle inside or outside of another, of its own placed radius."""
        is_within = math.dist(numbers(self.at), rim.centre) < rim.radius
        radius = own_um + (-size if is_within else size)
        if radius <= 0:
            raise WordFault(self.size, f"is more than the radius of {rim.name}")
        old, name = drawing.shape(rim.name), free_name(drawing, Figure.CIRCLE)
        assert isinstance(old, Circle)
        circle = Circle(name, PointRef(rim.name, Which.CENTRE), radius, old.construction)
        told = f"radius {name} {mm_text(radius)}"
        return asking(with_shapes(drawing, [circle]), told.split())

    def _side(self, drawing: Drawing, outline: Outline) -> float:
        """The side of the outline on which the place lies: 1 to its left, -1 to its right."""
        at = numbers(self.at)
        runs = [(run, _oriented(drawing, run)) for run in outline.runs]
        _, (edge, sense) = min(runs, key=lambda each: _away(each[1][0], at))
        if isinstance(edge, Round):
            is_within = math.dist(at, edge.centre) < edge.radius
            return sense if is_within else -sense
        (u, v), (x, y) = way(edge.start, edge.end), way(edge.start, at)
        return sense if u * y - v * x > 0 else -sense


def _oriented(drawing: Drawing, run: Run) -> tuple[Edge, float]:
    """An edge, and whether it is gone along as it is drawn (1), or back (-1)."""
    return edge_of(drawing, run.name), -1.0 if run.is_back else 1.0


def _away(edge: Edge, at: PointUm) -> float:
    """How far a place lies from an edge."""
    if isinstance(edge, Straight):
        return math.dist(at, edge.at(min(1.0, max(0.0, edge.along(at)))))
    if edge.has(at):
        return abs(math.dist(at, edge.centre) - edge.radius)
    ends = (edge.first, edge.first + edge.sweep)
    return min(math.dist(at, _on_rim(edge, each)) for each in ends)


def _on_rim(edge: Round, turn: float) -> PointUm:
    x, y = edge.centre
    return x + edge.radius * math.cos(turn), y + edge.radius * math.sin(turn)


def _outer(drawing: Drawing) -> Drawing:
    """A drawing in which all stays where it is."""
    return replace(drawing, geometry=tuple(replace(each, outer=True) for each in drawing.geometry))


@dataclass(frozen=True)
class _Beside:
    """The outline beside another, so far to its left in micrometres; under 0 to its right."""

    drawing: Drawing
    outline: Outline
    away: float

    def names(self) -> list[str]:
        """The free names of its edges, in their order."""
        scratch, found = self.drawing, []
        for run in self.outline.runs:
            old = self._shape(run)
            kind = Figure.ARC if isinstance(old, Arc) else Figure.SEGMENT
            found.append(free_name(scratch, kind))
            scratch = with_shapes(scratch, [replace(old, name=found[-1])])
        return found

    def shapes(self, names: Sequence[str]) -> list[Shape]:
        """Its edges under these names; each shares the point in which the one before it ends."""
        runs, made = self.outline.runs, list[Shape]()
        spots = list(map(self._spot, range(len(runs) + 1)))
        for number, (run, name) in enumerate(zip(runs, names)):
            first: Anchor = spots[number]
            last: Anchor = spots[number + 1]
            if number:
                first = PointRef(names[number - 1], ENDS[not runs[number - 1].is_back])
            if self.outline.is_closed and number == len(runs) - 1:
                last = PointRef(names[0], ENDS[runs[0].is_back])
            made.append(self._made(run, name, first, last))
        return made

    def check(self) -> None:
        """Raises WordFault where there is no room: where an edge would run against its own."""
        spots = [numbers(self._spot(number)) for number in range(len(self.outline.runs) + 1)]
        for run, first, last in zip(self.outline.runs, spots, spots[1:]):
            if self._is_turned(run, first, last):
                raise WordFault(run.name, "has no room beside it: offset it by less")

    def _is_turned(self, run: Run, first: PointUm, last: PointUm) -> bool:
        """Whether the edge beside one, gone along between two places, runs against it."""
        edge, sense = _oriented(self.drawing, run)
        if isinstance(edge, Straight):
            (x, y), (u, v) = way(edge.start, edge.end), way(first, last)
            return sense * (x * u + y * v) <= 0
        start, end = (first, last) if sense > 0 else (last, first)
        turns = [math.atan2(v - edge.centre[1], u - edge.centre[0]) for u, v in (start, end)]
        return (turns[1] - turns[0]) % (2 * math.pi) > edge.sweep + math.pi / 2

    def radius(self, run: Run) -> float:
        """The radius of the arc beside one."""
        edge, sense = _oriented(self.drawing, run)
        assert isinstance(edge, Round)
        return edge.radius - sense * self.away

    def _made(self, run: Run, name: str, first: Anchor, last: Anchor) -> Shape:
        start, end = (last, first) if run.is_back else (first, last)
        old = self._shape(run)
        if isinstance(old, Segment):
            return Segment(name, start, end, old.construction)
        return Arc(name, PointRef(run.name, Which.CENTRE), start, end, old.construction)

    def _shape(self, run: Run) -> Segment | Arc:
        found = self.drawing.shape(run.name)
        assert isinstance(found, (Segment, Arc))
        return found

    def _moved(self, run: Run) -> Edge:
        """The edge beside one. Raises WordFault where an arc would have no radius."""
        edge, sense = _oriented(self.drawing, run)
        if isinstance(edge, Round):
            if self.radius(run) <= 0:
                raise WordFault(run.name, "has a radius that is smaller: offset it by less")
            return replace(edge, radius=self.radius(run))
        (u, v), by = way(edge.start, edge.end), sense * self.away
        length = math.hypot(u, v)
        dx, dy = -v / length * by, u / length * by
        return Straight(edge.name, (edge.start[0] + dx, edge.start[1] + dy),
                        (edge.end[0] + dx, edge.end[1] + dy))

    def _spot(self, number: int) -> Place:
        """Where the edge of a number begins, from 0; where the last one ends for their count."""
        runs, count = self.outline.runs, len(self.outline.runs)
        if self.outline.is_closed:
            return rounded(*self._corner(runs[(number - 1) % count], runs[number % count]))
        if number == 0:
            return rounded(*self._foot(runs[0], runs[0].end(False)))
        if number == count:
            return rounded(*self._foot(runs[-1], runs[-1].end(True)))
        return rounded(*self._corner(runs[number - 1], runs[number]))

    def _foot(self, run: Run, end: PointRef) -> PointUm:
        """The place of the edge beside one that is nearest to an end of it."""
        at, edge = numbers(self.drawing.drawn(end)), self._moved(run)
        if isinstance(edge, Straight):
            return edge.at(edge.along(at))
        x, y = way(edge.centre, at)
        return _on_rim(edge, math.atan2(y, x))

    def _corner(self, one: Run, other: Run) -> PointUm:
        """Where the edges beside two meet, near to where these do; between their feet where they
        touch there, or don't meet."""
        at = numbers(self.drawing.drawn(other.end(False)))
        feet = self._foot(one, other.end(False)), self._foot(other, other.end(False))
        middle = (feet[0][0] + feet[1][0]) / 2, (feet[0][1] + feet[1][1]) / 2
        if math.dist(*feet) < 1e-2 * abs(self.away):
            return middle
        places = list(crossed(self._moved(one), self._moved(other)))
        return min(places, key=lambda each: math.dist(each, at), default=middle)


def _orders(drawing: Drawing, outline: Outline, names: Sequence[str], size: str,
            placed: _Beside) -> list[list[Words]]:
    """The orders of relations that may hold the outline: touches before all else, and one distance
    before the others; or each edge by itself."""
    pairs = [(run, name) for run, name in zip(outline.runs, names)
             if isinstance(drawing.shape(run.name), Segment)]
    parallel = [["parallel", run.name, name] for run, name in pairs]
    away = [["distance", run.name, name, size] for run, name in pairs]
    radii = [["radius", name, mm_text(Fraction(round(placed.radius(run))))]
             for run, name in zip(outline.runs, names)
             if isinstance(drawing.shape(run.name), Arc)]
    touches = list(_touches(drawing, outline, names))
    return [[*touches, *parallel[:1], *away[:1], *parallel, *away, *radii],
            [*touches, *radii[:1], *parallel, *away, *radii]]


def _touches(drawing: Drawing, outline: Outline, names: Sequence[str]) -> Iterator[Words]:
    """What is said to touch where it goes on, said of the edges beside."""
    name_of = {run.name: name for run, name in zip(outline.runs, names)}
    joints = [{one.name, other.name} for one, other in outline.joints()]
    for each in drawing.constraints:
        if isinstance(each, Tangent) and {each.first.name, each.second.name} in joints:
            yield ["tangent", *(name_of[ref.name] for ref in (each.first, each.second))]
