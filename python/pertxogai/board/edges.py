"""The edges of a drawing where they are drawn, and where they cross: by numbers, in micrometres."""
from __future__ import annotations

import math
from collections.abc import Iterable, Iterator
from dataclasses import dataclass, replace

from pertxogai.board.mapping import PointUm, numbers
from pertxogai.drawing import Arc, Circle, Drawing, PointRef, Segment, Which, WordFault
from pertxogai.drawing.checks import standing

NEAR = 1e-6
"""The share of an edge within which a crossing is one at its end."""


@dataclass(frozen=True)
class Straight:
    """A segment."""

    name: str
    start: PointUm
    end: PointUm

    def along(self, place: PointUm) -> float:
        """How far along it a place lies, as a share of it."""
        (x, y), (u, v) = way(self.start, place), way(self.start, self.end)
        return (x * u + y * v) / (u * u + v * v)

    def has(self, place: PointUm) -> bool:
        """Whether a place on the line through it lies between its ends, or in one."""
        return -NEAR <= self.along(place) <= 1 + NEAR

    def is_within(self, along: float) -> bool:
        """Whether a place so far along it lies between its ends, and in none."""
        return NEAR < along < 1 - NEAR

    def at(self, along: float) -> PointUm:
        """The place at a share of it."""
        u, v = way(self.start, self.end)
        return self.start[0] + u * along, self.start[1] + v * along


@dataclass(frozen=True)
class Round:
    """The rim of a circle or an arc; of an arc with its start, in radians, and how far it goes
    round."""

    name: str
    centre: PointUm
    radius: float
    first: float = 0.0
    sweep: float = 2 * math.pi
    is_arc: bool = False

    def along(self, place: PointUm) -> float:
        """How far round from its start a place lies, in radians."""
        x, y = way(self.centre, place)
        return (math.atan2(y, x) - self.first) % (2 * math.pi)

    def has(self, place: PointUm) -> bool:
        """Whether a place on its whole rim lies on it, or in an end."""
        return self.along(place) <= self.sweep + NEAR

    def is_within(self, along: float) -> bool:
        """Whether a place so far round lies on it, and in no end."""
        return not self.is_arc or NEAR < along < self.sweep - NEAR

    def at(self, along: float) -> PointUm:
        """The place so far round."""
        (x, y), turn = self.centre, self.first + along
        return x + self.radius * math.cos(turn), y + self.radius * math.sin(turn)


Edge = Straight | Round


def edge_of(drawing: Drawing, name: str) -> Edge:
    """The edge of a shape where it is drawn. Raises WordFault where it has none."""
    edge = edge_at(drawing, standing(drawing.scene, name, name), name)
    if edge is None:
        raise WordFault(name, "is no edge: click a segment, a circle or an arc")
    return edge


def edge_at(drawing: Drawing, shape: object, name: str) -> Edge | None:
    """The edge of a shape of that name; None of a point or of the datum."""
    def at(which: Which) -> PointUm:
        return numbers(drawing.drawn(PointRef(name, which)))
    match shape:
        case Segment():
            return Straight(name, at(Which.START), at(Which.END))
        case Circle():
            return Round(name, at(Which.CENTRE), float(drawing.drawn_radius_um(name)))
        case Arc():
            whole = Round(name, at(Which.CENTRE), float(drawing.drawn_radius_um(name)))
            first = whole.along(at(Which.START))
            sweep = (whole.along(at(Which.END)) - first) % (2 * math.pi)
            return replace(whole, first=first, sweep=sweep, is_arc=True)
    return None


def met(drawing: Drawing, edge: Edge) -> Iterator[tuple[str, PointUm]]:
    """Each place where the line or the whole rim of an edge meets another edge, and its name."""
    for shape in drawing.geometry:
        other = None if shape.name == edge.name else edge_at(drawing, shape, shape.name)
        if other is None:
            continue
        for place in crossed(edge, other):
            if other.has(place):
                yield shape.name, place


def crossed(one: Edge, other: Edge) -> Iterable[PointUm]:
    """Where the lines or the whole rims of two edges meet."""
    if isinstance(one, Round):
        return _rims(one, other) if isinstance(other, Round) else _line_and_rim(other, one)
    return _line_and_rim(one, other) if isinstance(other, Round) else _lines(one, other)


def _lines(one: Straight, other: Straight) -> Iterator[PointUm]:
    (u, v), (x, y) = way(one.start, one.end), way(other.start, other.end)
    a, b = way(one.start, other.start)
    across = u * y - v * x
    if abs(across) > 1e-9 * math.hypot(u, v) * math.hypot(x, y):
        yield one.at((a * y - b * x) / across)


def _line_and_rim(line: Straight, rim: Round) -> Iterator[PointUm]:
    middle = line.along(rim.centre)
    x, y = line.at(middle)
    square = rim.radius ** 2 - math.dist((x, y), rim.centre) ** 2
    if square > 0:
        share = math.sqrt(square) / math.dist(line.start, line.end)
        yield from (line.at(middle - share), line.at(middle + share))


def _rims(one: Round, other: Round) -> Iterator[PointUm]:
    away = math.dist(one.centre, other.centre)
    if not abs(one.radius - other.radius) < away < one.radius + other.radius:
        return
    along = (away ** 2 + one.radius ** 2 - other.radius ** 2) / (2 * away)
    aside = math.sqrt(max(0.0, one.radius ** 2 - along ** 2))
    u, v = (each / away for each in way(one.centre, other.centre))
    x, y = one.centre[0] + u * along, one.centre[1] + v * along
    yield from ((x - v * aside, y + u * aside), (x + v * aside, y - u * aside))


def way(start: PointUm, end: PointUm) -> PointUm:
    """The way from one place to another."""
    return end[0] - start[0], end[1] - start[1]
