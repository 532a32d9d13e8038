"""The edges and rims of a drawing that may come to cross, in several placements, as pieces in
floats: whole circles, and chords of edges and arcs."""
from __future__ import annotations

from collections.abc import Collection, Iterator, Sequence
from dataclasses import dataclass
from fractions import Fraction
from itertools import combinations
from math import atan2, ceil, cos, hypot, pi, sin
from typing import TypeAlias

import numpy as np
from numpy.typing import NDArray

from pertxogai.drawing import (
    ORIGIN, X_AXIS, Y_AXIS, Arc, Circle, Constraint, Distance, Drawing, PointLineDistance, PointOn,
    PointRef, Segment, ShapeRef, Symmetric, Tangent, Which)
from pertxogai.exact import Vector, between, cross, dot
from pertxogai.judging.departures import Departure, DepartureKind, Warned, turn_of_all
from pertxogai.judging.edge_points import AT_END_NM, EdgePoint, Endings, edge_points, is_beyond
from pertxogai.judging.edges import Chord, Edge, Edges, leaders_of, name_of
from pertxogai.judging.rims import Rim, Round

Array: TypeAlias = NDArray[np.float64]
Indices: TypeAlias = NDArray[np.intp]
Straight: TypeAlias = Segment | Distance | Edge
"""What goes straight from point to point: a segment, the way of a told distance, or an axis."""
Piece: TypeAlias = tuple[float, float, float, float, float, float]
"""A chord from x, y to x, y, or a circle round a centre that stands twice; the radius of a circle,
else 0; how far an arc bulges beyond its chord. All in nm."""

AXES = tuple(
    Edge(name, (ORIGIN, ORIGIN), Chord((0, 0), far), Chord((0, 0), far))
    for name, far in ((X_AXIS.name, (10 ** 12, 0)), (Y_AXIS.name, (0, 10 ** 12))))
"""The axes, as long as the greatest length."""

CHORD_TURN = pi / 24
"""A chord of an arc as it is drawn turns by no more."""


@dataclass(frozen=True)
class Placement:
    """One placement. ends: of each piece the two ends, in nm; radius, bulge: as a Piece has them.
    runs: how far each edge runs its drawn way, in nm; how far each two straight things that go
    through one point, or a mirror and the way to what it mirrors, are from one line; and how far
    each point that lies on an edge is from being beyond either end."""

    ends: Array
    radius: Array
    bulge: Array
    runs: Array


@dataclass(frozen=True)
class Things:
    """What of a drawing may come to cross or to turn about, whatever its dimensions are. outline,
    rims: the edges, and the circles and arcs, that may cross. counts: of how many pieces each of
    these is. pairs: the places of two of them that are drawn apart and end nowhere together. runs:
    what runs its drawn way. is_free: whether nothing ties it to the datum's directions, so that it
    runs as all is turned. meeting: each two straight things that locate one point. on_edges: the
    points that lie on an edge."""

    outline: tuple[Segment, ...]
    rims: tuple[Circle | Arc, ...]
    counts: tuple[int, ...]
    pairs: Indices
    runs: tuple[Segment, ...]
    is_free: bool
    meeting: tuple[tuple[Straight, Straight], ...]
    on_edges: tuple[EdgePoint, ...]

    @staticmethod
    def of(edges: Edges, known: Collection[Warned], is_free: bool) -> Things:
        """The things of a drawing, of which one placement is known. known: what is warned of
        there. Raises MissingPlace."""
        shapes = edges.drawing.geometry
        segments = tuple(each for each in shapes if isinstance(each, Segment))
        outline = tuple(each for each in segments if not each.construction)
        rims = tuple(each for each in shapes
                     if isinstance(each, Circle | Arc) and not each.construction)
        things = _placed(edges, outline, rims)
        endings = Endings(edges.drawing)
        pairs = [(one, other) for one, other in combinations(range(len(things)), 2)
                 if not _meet(endings, things[one], things[other])
                 and _may_cross(edges, things[one], things[other], known)]
        return Things(outline, rims, tuple(_count(each.drawn) for each in things),
                      np.array(pairs, np.intp).reshape(-1, 2), segments, is_free,
                      tuple(_meeting(edges.drawing, segments)),
                      tuple(each for each in edge_points(edges.drawing) if _holds(edges, each)))

    def starts(self) -> Indices:
        """The place of the first piece of each thing."""
        return np.cumsum([0, *self.counts[:-1]], dtype=np.intp)

    def placed(self, edges: Edges) -> Placement:
        """A placement of all, of this drawing or of one with other dimensions. Raises
        MissingPlace."""
        things = _placed(edges, self.outline, self.rims)
        pieces = np.array([piece for each, count in zip(things, self.counts)
                           for piece in _pieces(each.placed, count)], float).reshape(-1, 6)
        running = [*map(edges.of, self.runs)]
        turn = turn_of_all(running, self.is_free)
        turns = (_turn(_edge(edges, one), _edge(edges, other)) for one, other in self.meeting)
        rooms = (room for each in self.on_edges for room in _rooms(edges, each))
        runs = np.array([*(_run(each, turn) for each in running), *turns, *rooms], float)
        return Placement(pieces[:, :4].reshape(-1, 2, 2), pieces[:, 4], pieces[:, 5], runs)


def _placed(edges: Edges, outline: Sequence[Segment],
            rims: Sequence[Circle | Arc]) -> list[Edge | Rim]:
    """Edges and rims, as they are drawn and placed."""
    return [*map(edges.of, outline),
            *(Rim.of(edges.drawing, edges.solution, each) for each in rims)]


def _edge(edges: Edges, straight: Straight) -> Edge:
    return straight if isinstance(straight, Edge) else edges.of(straight)


def _run(edge: Edge, turn: Vector) -> float:
    """How far an edge runs its drawn way, once that is turned as all is."""
    return float(edge.runs(turn)) / (hypot(*edge.drawn.way) * hypot(*turn) or 1)


def _holds(edges: Edges, one: EdgePoint) -> bool:
    """Whether a point that lies on an edge is placed between its ends."""
    return not is_beyond(edges.of(one.edge).placed, edges.spot(one.point))


def _rooms(edges: Edges, one: EdgePoint) -> tuple[float, float]:
    """How far a point that lies on an edge may go on until it lies beyond the start, or the end."""
    edge = edges.of(one.edge).placed
    long = hypot(*edge.way)
    along = float(dot(edge.way, between(edge.start, edges.spot(one.point)))) / (long or 1)
    return along + AT_END_NM, long - along + AT_END_NM


def _meeting(drawing: Drawing, segments: Sequence[Segment]) -> Iterator[tuple[Straight, Straight]]:
    """Each two straight things that locate one point: segments and the ways of told distances that
    end there, and the lines that it lies on or at a distance from, as the centre of a circle that
    touches them."""
    leader = drawing.meetings.leader
    lines: dict[str, Straight] = {each.name: each for each in AXES}
    lines.update((each.name, each) for each in segments)
    through: dict[PointRef, dict[str, Straight]] = {}
    sides: list[Segment | Distance] = [*segments]
    sides += (each for each in drawing.constraints if isinstance(each, Distance))
    for side in sides:
        for end in leaders_of(drawing, side):
            through.setdefault(end, {})[name_of(side)] = side
    for each in drawing.constraints:
        for line, point in _lines_by_points(each):
            if line in lines:
                through.setdefault(leader(point), {})[line] = lines[line]
    for met in through.values():
        yield from combinations(met.values(), 2)
    yield from _mirrors(drawing)


def _mirrors(drawing: Drawing) -> Iterator[tuple[Straight, Straight]]:
    """Each line that two points are symmetric to, and the way to one of them: where the way is
    along the line, the two points are one."""
    for each in drawing.constraints:
        if isinstance(each, Symmetric) and isinstance(each.about, ShapeRef):
            line = drawing.shape(each.about.name)
            if isinstance(line, Segment):
                yield line, Distance(PointRef(line.name, Which.START), each.first, Fraction(1))


def _lines_by_points(said: Constraint) -> Iterator[tuple[str, PointRef]]:
    """The names of the lines, or of circles, by which a constraint locates points, and these."""
    match said:
        case PointOn(point, curve) | PointLineDistance(point, curve):
            yield curve.name, point
        case Tangent(first, second):
            yield first.name, PointRef(second.name, Which.CENTRE)
            yield second.name, PointRef(first.name, Which.CENTRE)


def _turn(one: Edge, other: Edge) -> float:
    """How far the end of the shorter of two edges that meet lies aside of the longer one."""
    longest = max(hypot(*one.placed.way), hypot(*other.placed.way)) or 1
    return float(cross(one.placed.way, other.placed.way)) / longest


def _meet(endings: Endings, one: Edge | Rim, other: Edge | Rim) -> bool:
    """Whether one of two edges ends on the line of the other."""
    return isinstance(one, Edge) and isinstance(other, Edge) and endings.meet(one.name, other.name)


def _may_cross(edges: Edges, one: Edge | Rim, other: Edge | Rim,
               known: Collection[Warned]) -> bool:
    """Whether two things that come to cross would be a departure: they are drawn apart, and don't
    end in one point."""
    if not _ends(edges, one).isdisjoint(_ends(edges, other)):
        return False
    names = one.name, other.name
    if Departure(DepartureKind.CROSSES, names) in known:
        return False
    return not _cross(one.drawn, other.drawn)


def _ends(edges: Edges, thing: Edge | Rim) -> frozenset[object]:
    if isinstance(thing, Edge):
        return frozenset(edges.leaders(thing))
    if thing.drawn.ends is None:
        return frozenset()
    return frozenset(map(edges.drawing.meetings.leader, thing.ends()))


def _cross(one: Chord | Round, other: Chord | Round) -> bool:
    if isinstance(other, Chord):
        return isinstance(one, Chord) and one.crosses(other)
    return other.is_cut_by(one) if isinstance(one, Chord) else other.crosses(one)


def _count(drawn: Chord | Round) -> int:
    """Of how many pieces a thing is."""
    if isinstance(drawn, Chord) or drawn.ends is None:
        return 1
    return max(1, ceil(_sweep(drawn)[1] / CHORD_TURN))


def _sweep(arc: Round) -> tuple[float, float]:
    """The direction in which an arc starts, and by how much it turns from there, in radians."""
    assert arc.ends is not None
    first, last = (between(arc.centre, end) for end in arc.ends)
    turn = atan2(float(cross(first, last)), float(dot(first, last)))
    return atan2(float(first[1]), float(first[0])), turn if turn > 0 else turn + 2 * pi


def _pieces(thing: Chord | Round, count: int) -> Iterator[Piece]:
    """The pieces of a placed thing."""
    if isinstance(thing, Chord):
        (left, low), (right, high) = thing.start, thing.end
        yield float(left), float(low), float(right), float(high), 0.0, 0.0
        return
    x, y = map(float, thing.centre)
    if thing.ends is None:
        yield x, y, x, y, float(thing.radius), 0.0
        return
    start, sweep = _sweep(thing)
    radius, part = float(thing.radius), sweep / count
    turns = [start + part * each for each in range(count + 1)]
    spots = [(x + radius * cos(turn), y + radius * sin(turn)) for turn in turns]
    for first, last in zip(spots, spots[1:]):
        yield *first, *last, 0.0, radius * (1 - cos(part / 2))
