"""Edges as they are drawn and as they are placed, in whole nanometres."""
from __future__ import annotations

from collections.abc import Iterator, Sequence
from dataclasses import dataclass, field
from itertools import combinations
from typing import NamedTuple, Protocol

from pertxogai.drawing import Arc, Distance, Drawing, PointRef, Segment, Which
from pertxogai.exact import Number, Vector, between, cross, dot, whole_near
from pertxogai.judging.measure.solution import Solution

LEAST_NM = 10
"""What is shorter may be nothing, since places are rounded."""
STRAIGHT_NM = 1000
"""A corner in which an end is no further off the line of the other edge is none."""


class Chord(NamedTuple):
    """From one end to the other, in one place of an edge, drawn or placed, in nm."""

    start: Vector
    end: Vector

    @property
    def way(self) -> Vector:
        """The way from the start to the end."""
        return between(self.start, self.end)

    def box(self) -> tuple[Vector, Vector]:
        """From where to where it goes in x, and in y."""
        (x, y), (u, v) = self.start, self.end
        return (min(x, u), max(x, u)), (min(y, v), max(y, v))

    def parts(self, other: Chord) -> bool:
        """Whether the ends of another lie on different sides of this one's line."""
        sides = [cross(self.way, between(self.start, end)) for end in (other.start, other.end)]
        return sides[0] * sides[1] < 0

    def crosses(self, other: Chord) -> bool:
        """Whether the two cut each other, and not in an end."""
        return self.parts(other) and other.parts(self)


class Edge(NamedTuple):
    """A segment, an arc from its start to its end, or the way that a distance is told of, as it is
    drawn, and as it is placed."""

    name: str
    ends: tuple[PointRef, PointRef]
    drawn: Chord
    placed: Chord

    def runs(self, turn: Vector) -> Number:
        """How far it runs its drawn way, once that is turned as all is: times the lengths of the
        drawn way and of that of the turn."""
        first, second = self.drawn.way, self.placed.way
        return dot(turn, (dot(first, second), cross(first, second)))

    def turns(self, other: Edge) -> bool | None:
        """Whether the corner with another edge turns to the other side than it is drawn; None where
        it is straight, drawn or placed."""
        sides = _side(self.drawn.way, other.drawn.way) * _side(self.placed.way, other.placed.way)
        return sides < 0 if sides else None


Side = Segment | Arc | Distance
"""What has an edge."""
Ends = tuple[PointRef, PointRef]


def name_of(side: Side) -> str:
    """What the edge of a side is called."""
    return f"{side.first} {side.second}" if isinstance(side, Distance) else side.name


def ends_of(side: Side) -> Ends:
    """The two points between which an edge runs."""
    if isinstance(side, Distance):
        return side.first, side.second
    return PointRef(side.name, Which.START), PointRef(side.name, Which.END)


def leaders_of(drawing: Drawing, side: Side) -> Ends:
    """The points that stand for all that are one with the ends of an edge."""
    start, end = map(drawing.meetings.leader, ends_of(side))
    return start, end


def corners(ends: Sequence[Ends]) -> list[tuple[int, int]]:
    """The places of each two edges that end in one point, by the leaders of their ends."""
    through: dict[PointRef, list[int]] = {}
    for place, leaders in enumerate(ends):
        for leader in set(leaders):
            through.setdefault(leader, []).append(place)
    return sorted({pair for places in through.values() for pair in combinations(places, 2)})


@dataclass(frozen=True)
class Edges:
    """Makes the edges of a placed drawing, each once."""

    drawing: Drawing
    solution: Solution
    _made: dict[str, Edge] = field(default_factory=dict, init=False, repr=False, compare=False)

    def of(self, side: Side) -> Edge:
        """Raises MissingPlace."""
        name = name_of(side)
        known = self._made.get(name)
        if known is None:
            known = self._made[name] = self._edge(name, ends_of(side))
        return known

    def spot(self, point: PointRef) -> Vector:
        """Where a point is placed, in whole nm. Raises MissingPlace."""
        x, y = self.solution.spot(point)
        return whole_near(x), whole_near(y)

    def leaders(self, edge: Edge) -> Ends:
        """The points that stand for all that are one with its ends."""
        start, end = map(self.drawing.meetings.leader, edge.ends)
        return start, end

    def _edge(self, name: str, ends: Ends) -> Edge:
        start, end = map(self.drawing.scene.drawn_nm, ends)
        return Edge(name, ends, Chord(start, end), Chord(*map(self.spot, ends)))


class Boxed(Protocol):
    """What lies in a box."""

    def box(self) -> tuple[Vector, Vector]:
        """From where to where it goes in x, and in y."""
        ...


def boxes_meet(chords: Sequence[Boxed]) -> Iterator[tuple[int, int]]:
    """The places of each two of which the boxes meet, by a sweep along x."""
    boxes = [each.box() for each in chords]
    passed: list[int] = []
    for place in sorted(range(len(boxes)), key=lambda each: boxes[each][0][0]):
        (left, _), (low, high) = boxes[place]
        passed = [each for each in passed if boxes[each][0][1] >= left]
        for each in passed:
            if boxes[each][1][0] <= high and low <= boxes[each][1][1]:
                yield min(each, place), max(each, place)
        passed.append(place)


def _side(first: Vector, second: Vector) -> int:
    """To which side a corner turns: 1 to the left, -1 to the right, 0 where it is straight."""
    turn = cross(first, second)
    if any(turn * turn <= STRAIGHT_NM ** 2 * run * run for way in (first, second) for run in way):
        return 0
    return 1 if turn > 0 else -1
