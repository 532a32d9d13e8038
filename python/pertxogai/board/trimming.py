"""A piece of an edge that is taken away between the edges that cross it, and a segment that goes
on to the next edge that it meets. Where edges cross is found where they are shown, by numbers."""
from __future__ import annotations

from collections.abc import Iterator
from dataclasses import dataclass, fields, replace

from pertxogai.board.anchors import with_spot
from pertxogai.board.edges import NEAR, Edge, Round, Straight, edge_of, met
from pertxogai.board.head_lines import with_head
from pertxogai.board.line_reader import asking
from pertxogai.board.mapping import PointUm, numbers, rounded
from pertxogai.board.new_names import Figure, free_name
from pertxogai.board.removal import without
from pertxogai.drawing import (
    Arc, Circle, Constraint, Drawing, Equal, Length, Midpoint, Note, Place, PointRef, Segment,
    Shape, ShapeRef, Which, WordFault, points_of, spot_of)
from pertxogai.drawing.mentions import refs_of


@dataclass(frozen=True)
class Crossing:
    """Where an edge is met: how far along it, as a share of a segment or in radians round a rim,
    the place that is so far along it as it is drawn, and the shape that it meets there."""

    along: float
    at: PointUm
    other: str


@dataclass(frozen=True)
class Trim:
    """Takes the piece of an edge away on which a place lies, between what crosses it there. shown:
    the drawing where it is shown; None for where it is drawn."""

    shape: str
    at: Place
    shown: Drawing | None = None

    def on(self, drawing: Drawing) -> Drawing:
        """The drawing without that piece; without the edge where nothing crosses it. Raises
        WordFault where there is no such edge, or it is given from outside."""
        shown = self.shown or drawing
        edge = _own_edge(shown, self.shape, "trimmed")
        along = edge.along(numbers(self.at))
        found = sorted(_crossings(drawing, shown, edge), key=lambda each: each.along)
        if not found:
            return without(drawing, frozenset({self.shape}), frozenset())
        return _without_piece(drawing, edge, found, along)


@dataclass(frozen=True)
class Extend:
    """Has a segment go on beyond the end that a place is nearer to, to what it meets next. shown:
    as for `Trim`."""

    shape: str
    at: Place
    shown: Drawing | None = None

    def on(self, drawing: Drawing) -> Drawing:
        """The drawing with it. Raises WordFault where it isn't a segment, is given from outside, or
        meets nothing."""
        shown = self.shown or drawing
        edge = _own_edge(shown, self.shape, "extended")
        if not isinstance(edge, Straight):
            raise WordFault(self.shape, "is no segment: only a segment goes on")
        is_end = edge.along(numbers(self.at)) > 0.5
        beyond = [each for each in _crossings(drawing, shown, edge, beyond=True)
                  if (each.along > 1 + NEAR if is_end else each.along < -NEAR)]
        if not beyond:
            raise WordFault(self.shape, "meets nothing on that side")
        nearest = min(beyond, key=lambda each: abs(each.along - is_end))
        return _ended(drawing, PointRef(self.shape, Which.END if is_end else Which.START), nearest)


def _own_edge(shown: Drawing, name: str, done: str) -> Edge:
    """An edge where it is shown. done: what is done with it. Raises WordFault where there is none,
    or it is given from outside, so that it stays as it is."""
    edge = edge_of(shown, name)
    if _shape(shown, name).outer:
        raise WordFault(name, f"is given from outside: it can't be {done}")
    return edge


def _crossings(drawing: Drawing, shown: Drawing, edge: Edge,
               beyond: bool = False) -> Iterator[Crossing]:
    """Where an edge is crossed between its ends, as it is shown; also where the line through it is,
    `beyond`."""
    drawn = edge_of(drawing, edge.name)
    for name, place in met(shown, edge):
        along = edge.along(place)
        if beyond or edge.is_within(along):
            yield Crossing(along, _drawn_at(drawn, edge, along), name)


def _drawn_at(drawn: Edge, shown: Edge, along: float) -> PointUm:
    """The place of an edge as it is drawn, as far along it as one of the same edge as it is
    shown."""
    if isinstance(drawn, Round) and isinstance(shown, Round):
        return drawn.at(along / shown.sweep * drawn.sweep)
    return drawn.at(along)


def _without_piece(drawing: Drawing, edge: Edge, found: list[Crossing], along: float) -> Drawing:
    """The drawing without the piece between two crossings, or between one and an end; of a circle
    an arc is left."""
    before = [each for each in found if each.along < along]
    behind = [each for each in found if each.along >= along]
    if isinstance(edge, Round) and not edge.is_arc:
        if len(found) < 2:
            raise WordFault(edge.name, "is crossed once: what is cut needs two crossings")
        return _opened(drawing, edge.name, (behind or found)[0], (before or found)[-1])
    if not before:
        return _ended(drawing, PointRef(edge.name, Which.START), behind[0])
    if not behind:
        return _ended(drawing, PointRef(edge.name, Which.END), before[-1])
    if isinstance(edge, Round):
        raise WordFault(edge.name, "would fall apart into two arcs: trim it from an end")
    return _split(drawing, edge.name, before[-1], behind[0])


def _split(drawing: Drawing, shape: str, first: Crossing, second: Crossing) -> Drawing:
    """The drawing with two segments on one line in place of one: the second ends as it did."""
    name = free_name(drawing, Figure.SEGMENT)
    old = drawing.shape(shape)
    assert isinstance(old, Segment)
    place = drawing.geometry.index(old)
    rest = replace(old, name=name, start=rounded(*second.at))
    shapes = *drawing.geometry[:place + 1], rest, *drawing.geometry[place + 1:]
    made = replace(drawing, geometry=shapes, notes=_behind(drawing, place))
    made = _moved_end(made, PointRef(shape, Which.END), PointRef(name, Which.END))
    made = _ended(made, PointRef(shape, Which.END), first)
    made = asking(made, ["collinear", shape, name])
    return asking(made, ["on", f"{name}.start", second.other])


def _opened(drawing: Drawing, shape: str, first: Crossing, last: Crossing) -> Drawing:
    """The drawing with an arc in place of a circle, from one crossing round to another."""
    old = drawing.shape(shape)
    assert isinstance(old, Circle)
    arc = Arc(old.name, old.centre, rounded(*first.at), rounded(*last.at), old.construction)
    made = replace(drawing, geometry=tuple(
        arc if shape is old else shape for shape in drawing.geometry))
    made = asking(made, ["on", f"{shape}.start", first.other])
    return asking(made, ["on", f"{shape}.end", last.other])


def _ended(drawing: Drawing, end: PointRef, crossing: Crossing) -> Drawing:
    """The drawing with an end of an edge drawn at a crossing, and on the edge that it meets there.
    What was said of that end goes; what else ended there stays."""
    freed = _alone(drawing, end)
    shape = with_spot(_shape(freed, end.shape), end.which, rounded(*crossing.at))
    made = replace(freed, geometry=tuple(
        shape if each.name == end.shape else each for each in freed.geometry))
    gone = {number for number, each in enumerate(made.constraints, 1) if _is_gone(each, end)}
    made = without(made, frozenset(), frozenset(gone))
    made = with_head(made, tolerancing=made.tolerancing.saying(
        lambda each: None if _is_gone(each, end) else each))
    return asking(made, ["on", str(end), crossing.other])


def _alone(drawing: Drawing, end: PointRef) -> Drawing:
    """The drawing in which an end has a place of its own; what was said of the point is said of
    another that lies in it, where there is one."""
    shape = _shape(drawing, end.shape)
    place = drawing.drawn(end)
    leader = spot_of(shape, end.which)
    heir = leader if isinstance(leader, PointRef) else None
    shapes: list[Shape] = []
    for each in drawing.geometry:
        for ref in points_of(each):
            if ref == end:
                each = with_spot(each, ref.which, place)
            elif spot_of(each, ref.which) == end:
                each = with_spot(each, ref.which, heir or place)
                heir = heir or ref
        shapes.append(each)
    made = replace(drawing, geometry=tuple(shapes))
    return made if heir is None else _said_of(made, end, heir)


def _said_of(drawing: Drawing, end: PointRef, heir: PointRef) -> Drawing:
    """The drawing in which what was said of a point, and measured of it, is of another."""
    said = tuple(_handed_on(each, end, heir) for each in drawing.constraints)
    checks = drawing.tolerancing.saying(lambda each: _handed_on(each, end, heir))
    return replace(drawing, constraints=said, tolerancing=checks)


def _handed_on(constraint: Constraint, end: PointRef, heir: PointRef) -> Constraint:
    """A constraint of a point, said of another; one of two ends that are one stays as it is."""
    changes = {each.name: heir for each in fields(constraint)
               if getattr(constraint, each.name) == end}
    return replace(constraint, **changes) if changes else constraint


def _is_gone(constraint: Constraint, end: PointRef) -> bool:
    """Whether a constraint is of an end that lies elsewhere now, or of what that changes."""
    return end in [*refs_of(constraint)] or _is_of_ends(constraint, end)


def _is_of_ends(constraint: Constraint, end: PointRef) -> bool:
    """Whether a constraint tells the length or the middle of a segment that ends elsewhere now."""
    names = {each.name for each in refs_of(constraint) if isinstance(each, ShapeRef)}
    return end.shape in names and isinstance(constraint, (Length, Midpoint, Equal))


def _moved_end(drawing: Drawing, end: PointRef, other: PointRef) -> Drawing:
    """The drawing in which an end is another's: what shares it, and what is said of it."""
    shapes: list[Shape] = []
    for each in drawing.geometry:
        for ref in points_of(each):
            if spot_of(each, ref.which) == end:
                each = with_spot(each, ref.which, other)
        shapes.append(each)
    return _said_of(replace(drawing, geometry=tuple(shapes)), end, other)


def _behind(drawing: Drawing, place: int) -> tuple[Note, ...]:
    """The notes once a shape is added behind the one at a place, from 0."""
    return tuple(replace(note, before=note.before + (note.before > place))
                 for note in drawing.notes)


def _shape(drawing: Drawing, name: str) -> Shape:
    """The shape of a name that stands."""
    return next(each for each in drawing.geometry if each.name == name)
