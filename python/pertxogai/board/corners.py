"""A corner of two segments that is rounded or cut: the segments end where the fillet or the chamfer
begins, and what was said of the corner is said of a point that stays where they would meet."""
from __future__ import annotations

import math
from collections.abc import Iterable, Iterator
from dataclasses import dataclass, replace
from enum import Enum

from pertxogai.board.anchors import with_spot
from pertxogai.board.line_reader import asked, asking
from pertxogai.board.mapping import PointUm, numbers, rounded
from pertxogai.board.new_names import Figure, free_name
from pertxogai.board.typed import value_word
from pertxogai.drawing import (
    Arc, Coincident, Constraint, Distance, Drawing, Fixed, Length, Midpoint, Note, Pair,
    Perpendicular, Place, PointRef, Segment, Shape, ShapeRef, Symmetric, Tangent, Which, WordFault,
    points_of)
from pertxogai.drawing.checks import standing
from pertxogai.drawing.geometry import Point
from pertxogai.drawing.mentions import refs_of, with_refs

FLATTEST = math.sin(math.radians(2))
"""The sine of the least angle between two segments whose corner is rounded or cut."""
MOST_SHARE = 0.9
"""The share of the shorter segment at most that the drawn fillet or chamfer takes."""


class CornerKind(Enum):
    """What is made of a corner; the values are the words of the bar."""

    FILLET = "fillet"
    CHAMFER = "chamfer"


@dataclass(frozen=True)
class Meeting:
    """Two segments with the ends in which they meet."""

    first: PointRef
    second: PointRef

    @staticmethod
    def of(drawing: Drawing, first: str, second: str) -> Meeting:
        """The corner of two segments. Raises WordFault where they have none, or one is given from
        outside, so that it stays as it is."""
        for name in (first, second):
            shape = standing(drawing.scene, name, name)
            if not isinstance(shape, Segment):
                raise WordFault(name, "is no segment: a fillet and a chamfer need two")
            if shape.outer:
                raise WordFault(name, "is given from outside: it can't be rounded or cut")
        pair = drawing.meetings.corner(ShapeRef(first), ShapeRef(second))
        if pair is None or first == second:
            raise WordFault(f"{first} {second}", "have no corner: join two of their ends")
        return Meeting(pair.first, pair.second)


def meetings_at(drawing: Drawing, point: PointRef) -> Iterator[str]:
    """The segments that have an end in a point."""
    for shape in drawing.geometry:
        ends = points_of(shape)
        if isinstance(shape, Segment) and any(drawing.meetings.same(each, point) for each in ends):
            yield shape.name


def has_corner(drawing: Drawing, first: str, second: str) -> bool:
    """Whether two segments have a corner that can be rounded or cut."""
    try:
        _Cut(drawing, Meeting.of(drawing, first, second)).sides()
    except WordFault:
        return False
    return True


@dataclass(frozen=True)
class Corner:
    """Rounds or cuts the corner of two segments. size: the radius, or how far the chamfer begins
    from the corner on both, as it is typed."""

    kind: CornerKind
    first: str
    second: str
    size: str

    def on(self, drawing: Drawing) -> Drawing:
        """The drawing with it. Raises WordFault, also where the segments have no corner, or run
        along each other."""
        cut = _Cut(drawing, Meeting.of(drawing, self.first, self.second))
        is_fillet = self.kind is CornerKind.FILLET
        return cut.filleted(self.size) if is_fillet else cut.chamfered(self.size)


@dataclass(frozen=True)
class _Cut:
    """A corner of a drawing that is cut open."""

    drawing: Drawing
    meeting: Meeting

    def filleted(self, size: str) -> Drawing:
        """The drawing with an arc in the corner."""
        (x, y), one, other = self.sides()
        turn = math.acos(max(-1.0, min(1.0, one[0] * other[0] + one[1] * other[1])))
        back = min(self._size(size) / math.tan(turn / 2), self._most())
        radius = back * math.tan(turn / 2)
        way = one[0] + other[0], one[1] + other[1]
        share = math.hypot(back, radius) / math.hypot(*way)
        name = free_name(self.drawing, Figure.ARC)
        first, second = self.meeting.first, self.meeting.second
        runs_back = one[0] * other[1] - one[1] * other[0] > 0
        ends = (second, first) if runs_back else (first, second)
        centre = rounded(x + way[0] * share, y + way[1] * share)
        arc = Arc(name, centre, *ends, construction=self._is_help())
        asks = [["tangent", first.shape, name], ["tangent", name, second.shape],
                ["radius", name, value_word(size)]]
        return self._with(arc, back, asks, self._is_spoken_of())

    def chamfered(self, size: str) -> Drawing:
        """The drawing with a segment across the corner."""
        back = min(self._size(size), self._most())
        name, point = free_name(self.drawing, Figure.SEGMENT), self._point()
        first, second = self.meeting.first, self.meeting.second
        asks = [["distance", point, str(each), value_word(size)] for each in (first, second)]
        edge = Segment(name, first, second, construction=self._is_help())
        return self._with(edge, back, asks, True)

    def _is_help(self) -> bool:
        """Whether both segments are lines of help."""
        names = {self.meeting.first.shape, self.meeting.second.shape}
        return all(each.construction for each in self.drawing.geometry if each.name in names)

    def sides(self) -> tuple[PointUm, PointUm, PointUm]:
        """Where the corner is drawn, in micrometres, and the directions of both segments from it.
        Raises WordFault where they run along each other."""
        corner = self.drawing.drawn(self.meeting.first)
        one, other = (_unit(corner, self.drawing.drawn(_far(each)))
                      for each in (self.meeting.first, self.meeting.second))
        if abs(one[0] * other[1] - one[1] * other[0]) < FLATTEST:
            words = f"{self.meeting.first.shape} {self.meeting.second.shape}"
            raise WordFault(words, "run along each other: there is no corner to round or cut")
        return (float(corner.x_um), float(corner.y_um)), one, other

    def _size(self, size: str) -> float:
        """A size as it is typed, in micrometres. Raises WordFault where it isn't a length."""
        ends = [str(self.meeting.first), str(_far(self.meeting.first))]
        (found,) = asked(self.drawing, ["distance", *ends, value_word(size)])
        assert isinstance(found, Distance)
        return float(found.value_um)

    def _most(self) -> float:
        """How far back from the corner it may be drawn, in micrometres."""
        corner = numbers(self.drawing.drawn(self.meeting.first))
        ends = (_far(self.meeting.first), _far(self.meeting.second))
        return MOST_SHARE * min(math.dist(corner, numbers(self.drawing.drawn(each)))
                                for each in ends)

    def _point(self) -> str:
        """The name of the point that stays in the corner."""
        return free_name(self.drawing, Figure.POINT)

    def _at_corner(self) -> frozenset[PointRef]:
        """All points of shapes that lie in the corner."""
        return frozenset(ref for ref in self.drawing.points()
                         if self.drawing.meetings.same(ref, self.meeting.first))

    def _is_spoken_of(self) -> bool:
        """Whether something is said of the corner, or of the whole segments."""
        ends = {self.meeting.first, self.meeting.second}
        names = {each.shape for each in ends}
        checked = (each.asked for each in self.drawing.tolerancing.checks)
        return bool(self._at_corner() - ends or self._fixed()) or any(
            _mentions(each, self._at_corner()) or _is_of_length(each, names)
            for each in (*self.drawing.constraints, *checked) if not self._joins(each))

    def _fixed(self) -> list[PointRef]:
        """The ends in the corner of the segments that are fixed."""
        fixed = [each.what for each in self.drawing.constraints if isinstance(each, Fixed)]
        return [each for each in (self.meeting.first, self.meeting.second)
                if ShapeRef(each.shape) in fixed]

    def _joins(self, constraint: Constraint) -> bool:
        """Whether a constraint only says that the two ends are one point."""
        ends = self._at_corner()
        return (isinstance(constraint, Coincident)
                and {constraint.first, constraint.second} <= ends)

    def _with(self, made: Shape, back: float, asks: Iterable[list[str]], keeps: bool) -> Drawing:
        """The drawing with the corner cut open so far back, in micrometres, and a shape in it; with
        a point in the corner where it `keeps` one."""
        (x, y), one, other = self.sides()
        name, fixed = self._point(), self._fixed()
        place = self.drawing.drawn(fixed[0] if fixed else self.meeting.first)
        ways = {self.meeting.first: one, self.meeting.second: other}
        opened = {ref: rounded(x + way[0] * back, y + way[1] * back) for ref, way in ways.items()}
        shapes = [self._opened(shape, opened, name if keeps else None)
                  for shape in self.drawing.geometry]
        first = min(place for place, shape in enumerate(self.drawing.geometry)
                    if {*points_of(shape)} & self._at_corner())
        point = Point(name, place, construction=True)
        geometry = (*shapes[:first], *([point] if keeps else []), *shapes[first:], made)
        asked_for = self.drawing.constraints
        said = [self._said(each, name) for each in asked_for if not self._joins(each)]
        gone = [number for number, each in enumerate(asked_for) if self._joins(each)]
        checks = self.drawing.tolerancing.saying(lambda each: self._said(each, name))
        drawing = replace(self.drawing, geometry=geometry, constraints=tuple(said),
                          notes=self._notes(first, keeps, gone), tolerancing=checks)
        on = [["on", name, each.shape] for each in opened] if keeps else []
        same = [["coincident", str(ref), name] for ref in self.drawing.points()
                if ref.which is Which.AT and ref in self._at_corner()]
        stays = [["fixed", name]] if fixed else []
        for words in [*on, *same, *stays, *asks]:
            drawing = asking(drawing, words)
        return drawing

    def _opened(self, shape: Shape, opened: dict[PointRef, Place], name: str | None) -> Shape:
        """A shape with its points of the corner drawn apart: the two ends where the cut begins, all
        others in the point that stays; but a single point has a place of its own."""
        for ref in points_of(shape):
            if ref in opened:
                shape = with_spot(shape, ref.which, opened[ref])
            elif ref in self._at_corner() and name is not None and not isinstance(shape, Point):
                shape = with_spot(shape, ref.which, PointRef(name))
        return shape

    def _said(self, constraint: Constraint, name: str) -> Constraint:
        """What a constraint says of the corner, and of a whole length, said of the point in it; of
        a segment that is fixed, said of its other end."""
        names = {each.shape: each for each in (self.meeting.first, self.meeting.second)}
        match constraint:
            case Length(ShapeRef(segment), value) if segment in names:
                ends = _in_order(names[segment], PointRef(name))
                return Distance(*ends, value, constraint.name, expression=constraint.expression,
                                tolerance=constraint.tolerance)
            case Midpoint(point, ShapeRef(segment)) if segment in names:
                return Symmetric(*_in_order(names[segment], PointRef(name)), point, constraint.name)
            case Fixed(ShapeRef(segment)) if segment in names:
                return Fixed(_far(names[segment]), constraint.name)
            case Perpendicular(first, second, Pair() as pair) if _is_at(pair, self._at_corner()):
                return Perpendicular(first, second, None, constraint.name)
            case Tangent(at=Pair() as pair) if _is_at(pair, self._at_corner()):
                raise WordFault(str(pair), "touch in this corner: it can't be rounded or cut")
        corner = self._at_corner()
        return with_refs(constraint, lambda ref: PointRef(name) if ref in corner else ref)

    def _notes(self, first: int, keeps: bool, gone: list[int]) -> tuple[Note, ...]:
        """The notes, each with what it stands at; what comes behind all shapes stays there."""
        count = len(self.drawing.geometry)

        def moved(note: Note) -> int:
            before = note.before
            behind = keeps * (before + note.beside > first) + (before >= count)
            return before + behind - sum(count + each < before for each in gone)
        return tuple(replace(note, before=moved(note)) for note in self.drawing.notes
                     if not (note.beside and note.before - count in gone))


def _far(end: PointRef) -> PointRef:
    """The other end of a segment."""
    return PointRef(end.shape, Which.START if end.which is Which.END else Which.END)


def _in_order(end: PointRef, corner: PointRef) -> tuple[PointRef, PointRef]:
    """The ends of a segment in their order, one of which is in the corner."""
    return (_far(end), corner) if end.which is Which.END else (corner, _far(end))


def _unit(start: Place, end: Place) -> PointUm:
    """The direction from one place to another."""
    dx, dy = float(end.x_um - start.x_um), float(end.y_um - start.y_um)
    length = math.hypot(dx, dy) or 1.0
    return dx / length, dy / length


def _is_at(pair: Pair, refs: frozenset[PointRef]) -> bool:
    """Whether two ends that are one lie in a corner."""
    return pair.first in refs or pair.second in refs


def _mentions(constraint: Constraint, refs: frozenset[PointRef]) -> bool:
    """Whether a constraint speaks of one of some points."""
    if isinstance(constraint, Perpendicular):
        return False
    return any(each in refs for each in refs_of(constraint))


def _is_of_length(constraint: Constraint, names: set[str]) -> bool:
    """Whether a constraint tells the length or the middle of one of some segments."""
    return isinstance(constraint, (Length, Midpoint)) and constraint.segment.name in names
