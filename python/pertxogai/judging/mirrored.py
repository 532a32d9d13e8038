"""What lies mirrored against the drawing, piece by piece: each of its corners turns to the other
side than it is drawn.

A piece is what closes up: edges of which none hangs at the others by a single point, as an
outline; or a chain of edges that closes nowhere. Two pieces that share one point are looked at each
by itself, since each may be turned over about it."""
from __future__ import annotations

from collections.abc import Collection, Iterable, Iterator, Sequence
from functools import cached_property
from typing import NamedTuple

from pertxogai.drawing import X_AXIS, Arc, Distance, Drawing, PointRef, Segment
from pertxogai.exact import dot
from pertxogai.judging.blocks import blocks
from pertxogai.judging.edges import Edge, Edges, Ends, Side, corners, leaders_of
from pertxogai.judging.measure.solution import Solution
from pertxogai.judging.told_runs import ToldRuns

LEAST_CLOSED = 3
"""No fewer edges close up around something; two between the same points lie on one line."""


def mirrored(drawing: Drawing, solution: Solution) -> Iterator[tuple[str, ...]]:
    """What lies mirrored as a whole, by the names of its edges: of the corners of a piece each
    turns to the other side than it is drawn, and of none the words tell to which. Outlines come
    first, and the points that are held by distances alone; then what has construction lines too,
    and each point that is held by distances from two others, if none of its edges was named before.
    Raises MissingPlace."""
    return Pieces.of(drawing).mirrored(Edges(drawing, solution))


class Piece(NamedTuple):
    """What has its edges, and the places of each two of them that end in one point."""

    sides: tuple[Side, ...]
    corners: tuple[tuple[int, int], ...]


class Pieces(NamedTuple):
    """The pieces of a drawing, whatever its dimensions are."""

    pieces: tuple[Piece, ...]

    @staticmethod
    def of(drawing: Drawing) -> Pieces:
        """Outlines come first, and then what `mirrored` says."""
        return Pieces(tuple(
            Piece(tuple(sides), tuple(corners([leaders_of(drawing, each) for each in sides])))
            for sides in _pieces(drawing)))

    def mirrored(self, edges: Edges) -> Iterator[tuple[str, ...]]:
        """What lies mirrored of a placed drawing that has these pieces, as `mirrored` says. Raises
        MissingPlace."""
        words = _Words(edges.drawing)
        named: set[str] = set()
        for piece in self.pieces:
            sides = [*map(edges.of, piece.sides)]
            names = tuple(each.name for each in sides)
            if named.isdisjoint(names) and _is_mirrored(sides, piece.corners, words):
                named.update(names)
                yield names


def _is_mirrored(sides: Sequence[Edge], places: Iterable[tuple[int, int]], words: _Words) -> bool:
    """Whether each corner of a piece turns to the other side than it is drawn, and no words tell
    the turn of one."""
    met = [(sides[first], sides[second]) for first, second in places]
    turns = [first.turns(second) for first, second in met]
    return (True in turns and False not in turns
            and not any(words.tell(*corner) for corner in met))


class _Words:
    """What the words tell of corners, so that the drawing doesn't choose how they turn."""

    def __init__(self, drawing: Drawing) -> None:
        self._drawing = drawing

    @cached_property
    def _runs(self) -> ToldRuns:
        return ToldRuns(self._drawing)

    def tell(self, first: Edge, second: Edge) -> bool:
        """Whether words tell the turn of a corner: signed angles lead from one edge to the other;
        or words tell from the axes along which line each edge runs, and each runs there as a sign
        tells, or where none does as it is drawn."""
        return (self._runs.is_turned(first.name, second.name)
                or self._is_told(first) and self._is_told(second))

    def _is_told(self, edge: Edge) -> bool:
        run = self._runs.run(*edge.ends)
        if None not in run:
            return any(run)
        is_directed = 0 in run or self._runs.is_directed(edge.name)
        return is_directed and (
            any(run) or self._runs.is_turned(X_AXIS.name, edge.name)
            or dot(edge.drawn.way, edge.placed.way) > 0)


def _pieces(drawing: Drawing) -> Iterator[list[Side]]:
    """What has the edges of each piece: first of outlines and of points that are held by distances
    alone, then with construction lines, then single points that are held by distances."""
    shapes = [each for each in drawing.geometry if isinstance(each, (Segment, Arc))]
    told = [each for each in drawing.constraints if isinstance(each, Distance)]
    outline = [each for each in shapes if not each.construction]
    for drawn in (outline, shapes):
        found: list[Side] = [*drawn]
        ended = {leader for each in found for leader in leaders_of(drawing, each)}
        found += [each for each in told if ended.isdisjoint(leaders_of(drawing, each))]
        yield from _outlines(found, [leaders_of(drawing, each) for each in found])
    yield from _points_by_distances(drawing, shapes, told)


def _outlines(found: Sequence[Side], ends: Sequence[Ends]) -> Iterator[list[Side]]:
    """What closes up; and of what doesn't, what hangs together."""
    closed = [each for each in blocks(ends) if len(each) >= LEAST_CLOSED]
    in_closed = {place for each in closed for place in each}
    open_ones = [place for place in range(len(found)) if place not in in_closed]
    chains = _hanging_together(open_ones, corners(ends))
    for piece in sorted([sorted(each) for each in (*closed, *chains)]):
        yield [found[place] for place in piece]


def _hanging_together(places: Collection[int],
                      met: Iterable[tuple[int, int]]) -> list[set[int]]:
    """The groups of places that corners join."""
    groups = {place: {place} for place in places}
    for first, second in met:
        if first in groups and second in groups and groups[first] is not groups[second]:
            less, more = sorted((groups[first], groups[second]), key=len)
            more |= less
            groups.update(dict.fromkeys(less, more))
    return list({id(group): group for group in groups.values()}.values())


def _points_by_distances(drawing: Drawing, shapes: Sequence[Segment | Arc],
                         told: Sequence[Distance]) -> Iterator[list[Side]]:
    """Each point in which no shape ends, with two distances from it, and the segment or distance
    between the two others."""
    ended = {leader for each in shapes for leader in leaders_of(drawing, each)}
    ways: dict[PointRef, dict[PointRef, Side]] = {}
    for each in told:
        first, second = leaders_of(drawing, each)
        ways.setdefault(first, {})[second] = ways.setdefault(second, {})[first] = each
    sides: list[Side] = [*told, *(each for each in shapes if isinstance(each, Segment))]
    across = {frozenset(leaders_of(drawing, each)): each for each in sides}
    for third in across.values():
        one, other = (ways.get(end, {}) for end in leaders_of(drawing, third))
        for point in one:  # In the order of the constraints: that of a set changes with each run.
            if point in other and point not in ended:
                yield [third, one[point], other[point]]
