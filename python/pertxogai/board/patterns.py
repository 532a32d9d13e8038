"""Copies that are kept like what they are copied from: mirrored, in a row, in a ring. Which lines
keep them so is chosen by rank, by numbers (`held`); what comes of them the program says."""
from __future__ import annotations

import math
from collections.abc import Iterable, Iterator, Sequence
from dataclasses import dataclass, replace
from fractions import Fraction

from pertxogai.board.copying import Copy, copied
from pertxogai.board.held import Held, Words, chosen, held, placed_by_numbers
from pertxogai.board.line_reader import asking
from pertxogai.board.mapping import Mapping, mirror, numbers, shift, turn
from pertxogai.board.more_lines import with_shapes
from pertxogai.board.named_value import Lines, named as named_value
from pertxogai.board.new_names import Figure, free_name
from pertxogai.board.removal import without
from pertxogai.classes import Classes
from pertxogai.drawing import (
    Anchor, Arc, Axis, Circle, Drawing, Horizontal, PointRef, Segment, Shape, ShapeRef, Vertical,
    Which, WordFault, points_of, words_of)
from pertxogai.drawing.checks import standing
from pertxogai.drawing.geometry import Point
from pertxogai.drawing.mentions import named
from pertxogai.drawing.numbers import decimal_text, mm_text

LEAST_COPIES, MOST_COPIES = 2, 60
"""How many a row or a ring may have, with the one that is there."""


@dataclass(frozen=True)
class Mirror:
    """Draws shapes once more, mirrored in a segment or an axis: their points are symmetric about
    it, rims are equal, and what lies on it is shared."""

    shapes: tuple[str, ...]
    about: str

    def on(self, drawing: Drawing) -> Drawing:
        """The drawing with them. Raises WordFault where there is no such line, or all lies on
        it."""
        line = standing(drawing.scene, self.about, self.about)
        if not isinstance(line, (Segment, Axis)):
            raise WordFault(self.about, "is no line to mirror about: choose a segment or an axis")
        names = tuple(each for each in self.shapes if each != self.about)
        placed = placed_by_numbers(drawing)
        copy = copied(placed, names, self._mapping(placed), self._is_level(drawing))
        if not copy.shapes():
            raise WordFault(self.about, "has all of it on it: there is nothing to mirror")
        points = [["symmetric", str(ref), str(copy.of(ref)), "about", self.about]
                  for ref in copy.points()]
        found = held(copy, _orders(copy, points, _equal_edges(copy)))
        on = chosen(placed, [["on", str(ref), self.about] for ref in _staying(copy)])
        return _asking(copy.drawn(drawing, self._mapping(drawing)), [*on.lines, *found.lines])

    def _mapping(self, drawing: Drawing) -> Mapping:
        line = drawing.shape(self.about)
        if isinstance(line, Axis):
            return mirror((0.0, 0.0), (0.0, 1.0) if line.upwards else (1.0, 0.0))
        start, end = (numbers(drawing.drawn(PointRef(self.about, each)))
                      for each in (Which.START, Which.END))
        return mirror(start, end)

    def _is_level(self, drawing: Drawing) -> bool:
        """Whether the line is told to be level or upright."""
        mine = ShapeRef(self.about)
        return isinstance(drawing.shape(self.about), Axis) or any(
            isinstance(each, (Horizontal, Vertical)) and each.of == mine
            for each in drawing.constraints)


@dataclass(frozen=True)
class Row:
    """Draws shapes again and again, so many in all, each a pitch further: the first copy is told by
    the pitch, and each is the middle of its neighbours."""

    shapes: tuple[str, ...]
    dx_um: Fraction
    dy_um: Fraction
    count: int

    def on(self, drawing: Drawing) -> Drawing:
        """The drawing with them. Raises WordFault where there are too few or too many, or the pitch
        is nothing."""
        _check_count(self.count, "a row")
        if not self.dx_um and not self.dy_um:
            raise WordFault("0", "is no pitch: choose a place elsewhere")
        placed, copies = placed_by_numbers(drawing), list[Copy]()
        for number in range(1, self.count):
            mapping = shift(float(self.dx_um) * number, float(self.dy_um) * number)
            copy = copied(placed, self.shapes, mapping, True)
            points = list(copy.points())
            first, rest = self._relations(copies, copy, points[:1]), self._relations(
                copies, copy, points[1:])
            more = [*_equal_edges(copy), *_parallel_edges(copy)]
            found = held(copy, _orders(copy, rest, more, first))
            drawing = copy.drawn(drawing, mapping)
            lines: Lines = found.lines
            for word, way_um in (("x", self.dx_um), ("y", self.dy_um)):
                drawing, lines = named_value(drawing, lines, word, "Pitch", mm_text(abs(way_um)))
            drawing = _asking(drawing, lines)
            placed, copies = copy.whole, [*copies, copy]
        return drawing

    def _relations(self, copies: Sequence[Copy], copy: Copy,
                   points: Sequence[PointRef]) -> list[Words]:
        """How points of a copy lie by those of the copies before it."""
        found: list[Words] = []
        for ref in points:
            if copies:
                before = copies[-2].of(ref) if len(copies) > 1 else ref
                found.append(["symmetric", str(before), str(copy.of(ref)), "about",
                              str(copies[-1].of(ref))])
            else:
                found += self._pitch(str(ref), str(copy.of(ref)))
        return found

    def _pitch(self, one: str, other: str) -> Iterator[Words]:
        """How far a point lies from another."""
        for word, level, way_um in (("x", "vertical", self.dx_um), ("y", "horizontal", self.dy_um)):
            if way_um:
                yield [word, one, other, mm_text(abs(way_um))]
            else:
                yield [level, one, other]


@dataclass(frozen=True)
class Ring:
    """Draws shapes again and again round a centre, so many in all, by equal parts of a full turn:
    spokes of one length from the centre make equal angles; two are symmetric about it."""

    shapes: tuple[str, ...]
    about: Anchor
    count: int

    def on(self, drawing: Drawing) -> Drawing:
        """The drawing with them. Raises WordFault where there are too few or too many."""
        _check_count(self.count, "a ring")
        drawing, centre = _with_centre(drawing, self.about)
        return _Round(self.shapes, centre, self.count).on(drawing)


def _with_centre(drawing: Drawing, about: Anchor) -> tuple[Drawing, PointRef]:
    """A drawing with the point in a spot: one that stands, or a construction point."""
    if isinstance(about, PointRef):
        return drawing, about
    name = free_name(drawing, Figure.POINT)
    return with_shapes(drawing, [Point(name, about, construction=True)]), PointRef(name)


@dataclass(frozen=True)
class _Round:
    """Shapes that are drawn round a point."""

    shapes: tuple[str, ...]
    centre: PointRef
    count: int

    def on(self, drawing: Drawing) -> Drawing:
        """The drawing with them."""
        placed = placed_by_numbers(drawing)
        if self.count == 2:
            return self._opposite(drawing, placed)
        state = _Spoked(drawing, placed, {}, {name: name for name in self.shapes})
        at = drawing.drawn(self.centre)
        points = [ref for ref in _spoke_points(placed, self.shapes, self.centre)
                  if drawing.drawn(ref) != at]
        state = state.with_spokes(self.centre, {ref: ref for ref in points})
        firsts = list(_firsts(placed, points))
        for number in range(1, self.count):
            copy = self._copy(state.placed, self._turned(placed, number), False)
            spoked = state.with_copy(copy, self._turned(drawing, number)).with_spokes(
                self.centre, {ref: copy.of(ref) for ref in state.spokes})
            copy = replace(copy, whole=spoked.placed)
            found = held(copy, self._orders(copy, state, spoked, firsts))
            state = spoked.asking(found)
            if number == 1:
                state = state.pruned(spoked.spokes)
        return state.drawing

    def _opposite(self, drawing: Drawing, placed: Drawing) -> Drawing:
        """The drawing with one copy over against what is copied."""
        copy = self._copy(placed, self._turned(placed, 1), True)
        points = [["symmetric", str(ref), str(copy.of(ref)), "about", str(self.centre)]
                  for ref in copy.points()]
        found = held(copy, _orders(copy, points, _equal_edges(copy)))
        return _asking(copy.drawn(drawing, self._turned(drawing, 1)), found.lines)

    def _copy(self, drawing: Drawing, mapping: Mapping, levels: bool) -> Copy:
        """A copy of the shapes. Raises WordFault where all of it stays where it is."""
        copy = copied(drawing, self.shapes, mapping, levels)
        if not copy.shapes():
            raise WordFault(str(self.centre), "is the centre of all of it: there is nothing to "
                                              "turn")
        return copy

    def _turned(self, drawing: Drawing, number: int) -> Mapping:
        return turn(numbers(drawing.drawn(self.centre)), 2 * math.pi * number / self.count)

    def _orders(self, copy: Copy, before: _Spoked, spoked: _Spoked,
                firsts: Sequence[PointRef]) -> list[list[Words]]:
        """The orders of relations that may hold a copy: its first spokes before all else."""
        step = decimal_text(Fraction(360, self.count))
        spokes = {ref: [["equal", before.bases[ref], name],
                        ["angle", before.spokes[ref], name, f"{step}deg"]]
                  for ref, name in spoked.spokes.items()}
        first = [words for ref in firsts if ref in spokes for words in spokes[ref]]
        rest = [words for ref in spokes if ref not in firsts for words in spokes[ref]]
        edges = [["angle", before.names[name], copy.names[name], f"+{step}deg"]
                 for name in _edges(copy)]
        return _orders(copy, [], [*_equal_edges(copy), *edges, *rest], first)


@dataclass(frozen=True)
class _Spoked:
    """A drawing, and the same as it is placed, with the spokes to some points of what is copied and
    to those of the last copy, by the points that are copied; and the names of that copy's
    shapes."""

    drawing: Drawing
    placed: Drawing
    spokes: dict[PointRef, str]
    names: dict[str, str]
    first: dict[PointRef, str] | None = None

    @property
    def bases(self) -> dict[PointRef, str]:
        """The spokes to what is copied."""
        return self.spokes if self.first is None else self.first

    def with_copy(self, copy: Copy, mapping: Mapping) -> _Spoked:
        """The same with a copy, which is the last."""
        return _Spoked(copy.drawn(self.drawing, mapping), copy.whole, self.spokes,
                       dict(copy.names), self.bases)

    def with_spokes(self, centre: PointRef, ends: dict[PointRef, PointRef]) -> _Spoked:
        """The same with spokes to some points, by the points that are copied."""
        found, drawing, placed = dict[PointRef, str](), self.drawing, self.placed
        for ref, end in ends.items():
            name = found[ref] = free_name(placed, Figure.SEGMENT)
            spoke = Segment(name, centre, end, construction=True)
            drawing, placed = with_shapes(drawing, [spoke]), with_shapes(placed, [spoke])
        return replace(self, drawing=drawing, placed=placed, spokes=found)

    def asking(self, found: Held) -> _Spoked:
        """The same with what holds the last copy."""
        return replace(self, drawing=_asking(self.drawing, found.lines))

    def pruned(self, last: dict[PointRef, str]) -> _Spoked:
        """The same without the spokes that nothing speaks of. last: those of the last copy."""
        spoken = {name for each in self.drawing.constraints for name in named(each)}
        kept = [ref for ref, name in last.items() if name in spoken]
        gone = frozenset(name for of in (self.bases, last) for ref, name in of.items()
                         if ref not in kept)
        drawing, placed = (without(each, gone, frozenset())
                           for each in (self.drawing, self.placed))
        return replace(self, drawing=drawing, placed=placed,
                       spokes={ref: last[ref] for ref in kept},
                       first={ref: self.bases[ref] for ref in kept})


def _spoke_points(drawing: Drawing, shapes: Sequence[str], centre: PointRef) -> Iterator[PointRef]:
    """The points to which spokes may go: of those that are one the first, centres of rims before
    ends."""
    refs = [ref for shape in _chosen(drawing, shapes) for ref in points_of(shape)]
    seen = {drawing.meetings.leader(centre)}
    for ref in sorted(refs, key=lambda each: each.which is not Which.CENTRE):
        leader = drawing.meetings.leader(ref)
        if leader not in seen:
            yield ref
        seen.add(leader)


def _firsts(drawing: Drawing, points: Sequence[PointRef]) -> Iterator[PointRef]:
    """Of the points of each piece that hangs together the first."""
    pieces: Classes[str] = Classes()
    met: dict[PointRef, str] = {}
    for shape in drawing.geometry:
        for ref in points_of(shape):
            first = met.setdefault(drawing.meetings.leader(ref), shape.name)
            pieces.join(pieces.leader(first), pieces.leader(shape.name))
    seen: set[str] = set()
    for ref in points:
        piece = pieces.leader(ref.shape)
        if piece not in seen:
            yield ref
        seen.add(piece)


def _chosen(drawing: Drawing, shapes: Sequence[str]) -> Iterator[Shape]:
    return (each for each in drawing.geometry if each.name in set(shapes))


def _orders(copy: Copy, points: Sequence[Words], more: Sequence[Words],
            first: Sequence[Words] = ()) -> list[list[Words]]:
    """Some orders of what may hold a copy: sizes before points, points before sizes, and the ends
    of arcs before their centres."""
    said = [words_of(each).split() for each in copy.said()]
    rims = [["equal", name, other] for name, other in copy.names.items()
            if name != other and isinstance(copy.whole.shape(name), (Circle, Arc))]
    centres = [words for words in points if words[1].endswith(".centre")]
    ends = [words for words in points if words not in centres]
    by_points = [*first, *said, *rims, *centres, *ends, *more]
    by_sizes = [*first, *said, *rims, *more, *centres, *ends]
    return [*([by_points, by_sizes] if copy.mapping.mirrors else [by_sizes, by_points]),
            [*first, *ends, *centres, *rims, *more]]


def _edges(copy: Copy) -> Iterator[str]:
    """The segments that are copied."""
    return (name for name, other in copy.names.items()
            if name != other and isinstance(copy.whole.shape(name), Segment))


def _equal_edges(copy: Copy) -> list[Words]:
    return [["equal", name, copy.names[name]] for name in _edges(copy)]


def _parallel_edges(copy: Copy) -> list[Words]:
    return [["parallel", name, copy.names[name]] for name in _edges(copy)]


def _staying(copy: Copy) -> Iterator[PointRef]:
    """The points that their copies share with them."""
    seen: set[PointRef] = set()
    for name in copy.names:
        for ref in copy.whole.scene.points(name):
            leader = copy.whole.meetings.leader(ref)
            if leader not in seen and copy.same(ref):
                yield ref
            seen.add(leader)


def _asking(drawing: Drawing, lines: Iterable[Sequence[str]]) -> Drawing:
    """A drawing in which some lines are asked for besides."""
    for words in lines:
        drawing = asking(drawing, list(words))
    return drawing


def _check_count(count: int, what: str) -> None:
    """Raises WordFault unless a row or a ring may have so many."""
    if not LEAST_COPIES <= count <= MOST_COPIES:
        raise WordFault(str(count), f"is no count of {what}: give {LEAST_COPIES} to "
                                    f"{MOST_COPIES}, with the one that is there")
