"""What lies within a closed outline, or outside of it: as it is drawn, and as it is placed."""
from __future__ import annotations

from bisect import bisect_left, bisect_right
from collections.abc import Iterable, Iterator, Sequence
from typing import NamedTuple

from pertxogai.classes import Classes
from pertxogai.drawing import PointRef
from pertxogai.exact import Vector, between, cross, dot, square
from pertxogai.judging.edges import Chord, Edge, Ends
from pertxogai.judging.rims import TOUCHING_NM, Rim, Round


class Loop(NamedTuple):
    """A closed outline by its edges and arcs, or a circle."""

    name: str
    edges: tuple[Edge, ...]
    rims: tuple[Rim, ...]

    def place(self, is_placed: bool) -> Vector:
        """The centre of a circle, the first end of an outline, as it is drawn or placed."""
        circle = self._circle(is_placed)
        return self._end(is_placed) if circle is None else circle.centre

    def lies_within(self, other: Loop, is_placed: bool) -> bool:
        """Whether it lies within another that it doesn't cross, as both are drawn or placed."""
        return (other.has(self.place(is_placed), is_placed)
                and not self._goes_round(other, is_placed))

    def is_unsure(self, other: Loop, is_placed: bool) -> bool:
        """Whether that isn't known, since a place by which it is known lies on an outline."""
        if other.is_on(self.place(is_placed), is_placed):
            return True
        return other._circle(is_placed) is None and self.is_on(other._end(is_placed), is_placed)

    def crosses(self, other: Loop, is_placed: bool) -> bool:
        """Whether it crosses another, as both are drawn or placed, and doesn't only touch it."""
        mine, its = self._chords(is_placed), other._chords(is_placed)
        my_rims, its_rims = self._rims(is_placed), other._rims(is_placed)
        return (any(one.crosses(each) for one in mine for each in its)
                or any(rim.is_cut_by(each) for rim in its_rims for each in mine)
                or any(rim.is_cut_by(each) for rim in my_rims for each in its)
                or any(rim.crosses(each) for rim in my_rims for each in its_rims))

    def _goes_round(self, other: Loop, is_placed: bool) -> bool:
        """Whether it is a circle round another, whose centre so may lie within that."""
        mine, its = self._circle(is_placed), other._circle(is_placed)
        if mine is None:
            return False
        if its is not None:
            return its.radius <= mine.radius
        return square(between(mine.centre, other._end(is_placed))) < mine.radius ** 2

    def _circle(self, is_placed: bool) -> Round | None:
        return next((each for each in self._rims(is_placed) if each.ends is None), None)

    def _end(self, is_placed: bool) -> Vector:
        """Where the first edge or arc of an outline begins."""
        arcs = (each.ends for each in self._rims(is_placed) if each.ends is not None)
        return next(start for start, _ in (*self._ways(is_placed), *arcs))

    def has(self, spot: Vector, is_placed: bool) -> bool:
        """Whether a place lies within it, as it is drawn or placed."""
        rims = self._rims(is_placed)
        ways = [*self._ways(is_placed), *(each.ends for each in rims if each.ends is not None)]
        inside = sum(_is_passed(spot, *way) for way in ways)
        return (inside + sum(_is_bulge(spot, each) for each in rims)) % 2 == 1

    def box(self, is_placed: bool) -> tuple[Vector, Vector]:
        """From where to where it goes in x, and in y, or further, as it is drawn or placed."""
        edges = ((each.placed if is_placed else each.drawn).box() for each in self.edges)
        across, up = zip(*edges, *(each.box() for each in self._rims(is_placed)))
        return _span(across), _span(up)

    def is_on(self, spot: Vector, is_placed: bool) -> bool:
        """Whether a place lies on it, as near as what touches: on neither side then."""
        return (any(_is_on_way(spot, *each) for each in self._ways(is_placed))
                or any(each.is_near(spot) for each in self._rims(is_placed)))

    def _rims(self, is_placed: bool) -> list[Round]:
        return [each.placed if is_placed else each.drawn for each in self.rims]

    def _chords(self, is_placed: bool) -> list[Chord]:
        return [each.placed if is_placed else each.drawn for each in self.edges]

    def _ways(self, is_placed: bool) -> list[tuple[Vector, Vector]]:
        return [(each.start, each.end) for each in self._chords(is_placed)]


class Loops:
    """The circles of a drawing, and its closed outlines, by the places of their edges and rims
    among all of these: whatever its dimensions are."""

    def __init__(self, ends: Sequence[Ends | None]) -> None:
        """ends: the leaders of the ends of each edge and arc; None of a circle."""
        self._places = (*((place,) for place, each in enumerate(ends) if each is None),
                        *_outlines(ends))
        self._drawn: frozenset[tuple[int, int]] | None = None

    def leavers(self, things: Sequence[Edge | Rim]) -> Iterator[tuple[str, str]]:
        """Each circle or closed outline that lies on the other side of another outline than it is
        drawn, and the name of that one's first edge. What lies on that one, or crosses it as it is
        drawn and as it is placed, is on no side of it. things: the edges and rims in their order,
        as they are drawn and placed."""
        loops = [_loop([things[place] for place in places]) for places in self._places]
        if self._drawn is None:
            self._drawn = frozenset(_within(loops, False))
        for one, other in sorted(self._drawn.symmetric_difference(_within(loops, True))):
            thing, loop = loops[one], loops[other]
            if not (any(thing.is_unsure(loop, each) for each in (False, True))
                    or all(thing.crosses(loop, each) for each in (False, True))):
                yield thing.name, loop.name


def _within(loops: Sequence[Loop], is_placed: bool) -> Iterator[tuple[int, int]]:
    """The places of each two of which the first lies within the second, as they are drawn or
    placed. Only what has its place in the box of another is looked at."""
    spots = sorted((*each.place(is_placed), one) for one, each in enumerate(loops))
    lefts = [x for x, _, _ in spots]
    for other, loop in enumerate(loops):
        (left, right), (low, high) = loop.box(is_placed)
        for _, y, one in spots[bisect_left(lefts, left):bisect_right(lefts, right)]:
            if one != other and low <= y <= high and loops[one].lies_within(loop, is_placed):
                yield one, other


def _span(runs: Iterable[Vector]) -> Vector:
    """From the least to the greatest of some runs."""
    lows, highs = zip(*runs)
    return min(lows), max(highs)


def _outlines(ends: Sequence[Ends | None]) -> Iterator[tuple[int, ...]]:
    """The places of each outline in which each point ends two edges."""
    classes: Classes[PointRef] = Classes()
    count: dict[PointRef, int] = {}
    for start, end in filter(None, ends):
        classes.join(start, end)
        for each in (start, end):
            count[each] = count.get(each, 0) + 1
    parts: dict[PointRef, list[int]] = {}
    for place, pair in enumerate(ends):
        if pair is not None:
            parts.setdefault(classes.leader(pair[0]), []).append(place)
    for places in parts.values():
        if all(count[each] == 2 for place in places for each in ends[place] or ()):
            yield tuple(places)


def _loop(mine: Sequence[Edge | Rim]) -> Loop:
    """The circle, or the outline, of these edges and rims."""
    return Loop(mine[0].name, tuple(each for each in mine if isinstance(each, Edge)),
                tuple(each for each in mine if isinstance(each, Rim)))


def _is_on_way(spot: Vector, start: Vector, end: Vector) -> bool:
    """Whether a place is as near to the way between two others as what touches."""
    way, here, near = between(start, end), between(start, spot), TOUCHING_NM ** 2
    along, long = dot(way, here), square(way)
    if not 0 < along < long:
        return min(square(here), square(between(end, spot))) <= near
    return cross(way, here) ** 2 <= near * long


def _is_passed(spot: Vector, start: Vector, end: Vector) -> bool:
    """Whether a way passes to the right of a place, half a nanometre above it. One that leads
    through it counts as passing to the right of its way, as for `_is_bulge`."""
    level, first, last = spot[1], start[1], end[1]
    if (first > level) == (last > level):
        return False
    aside = cross(between(_twice(start), _twice(end)), between(_twice(start), _above(spot)))
    return aside >= 0 if last > first else aside < 0


def _is_bulge(spot: Vector, rim: Round) -> bool:
    """Whether a place, half a nanometre above, lies between an arc and its chord, or within a
    circle."""
    if square(between(_twice(rim.centre), _above(spot))) >= 4 * rim.radius ** 2:
        return False
    if rim.ends is None:
        return True
    start, end = map(_twice, rim.ends)
    return cross(between(start, end), between(start, _above(spot))) < 0


def _twice(spot: Vector) -> Vector:
    return 2 * spot[0], 2 * spot[1]


def _above(spot: Vector) -> Vector:
    """Twice a place that is half a nanometre above another: level with no whole one."""
    return 2 * spot[0], 2 * spot[1] + 1
