"""Shapes drawn once more under free names, elsewhere: what they share with each other, and what is
said among them without a number."""
from __future__ import annotations

from collections.abc import Iterator, Mapping as Names
from dataclasses import dataclass, replace

from pertxogai.board.anchors import with_spot
from pertxogai.board.mapping import Mapping, numbers
from pertxogai.board.more_lines import with_shapes
from pertxogai.board.new_names import Figure, free_name
from pertxogai.drawing import (
    Anchor, AngleBetween, Arc, Circle, Coincident, Collinear, Concentric, Constraint, Drawing,
    Equal, Fixed, Horizontal, Midpoint, Parallel, Perpendicular, PointOn, PointRef, Segment, Shape,
    ShapeRef, Symmetric, Tangent, Vertical, Which, WordFault, X_AXIS, Y_AXIS, points_of, spot_of)
from pertxogai.drawing.checks import standing
from pertxogai.drawing.geometry import Point
from pertxogai.drawing.mentions import named, with_refs

NEAR_UM = 1.0
"""Micrometres within which a place stays where it is."""
RELATIONS = (Tangent, Perpendicular, Parallel, Collinear, Equal, PointOn, Midpoint, Symmetric)
"""What is said without a number is as true of a copy that is turned or mirrored."""
LEVELS = Horizontal, Vertical
DIRECTED = AngleBetween, Parallel, Perpendicular
"""What speaks of an axis as of a direction alone."""
DIRECTIONS = frozenset({X_AXIS.name, Y_AXIS.name})
_SWAPPED = {Which.START: Which.END, Which.END: Which.START}
_FIGURE: Names[type[Shape], Figure] = {
    Point: Figure.POINT, Segment: Figure.SEGMENT, Circle: Figure.CIRCLE, Arc: Figure.ARC}


@dataclass(frozen=True)
class Copy:
    """A copy of some shapes of a drawing, in a drawing that has both.

    whole: that drawing, in which nothing is said of the copy yet. names: the name of each copied
    shape's copy; of one that stays where it is, its own. mapping: where the places go. levels:
    whether what is level or upright stays so. before: the shapes that were there before."""

    whole: Drawing
    names: Names[str, str]
    mapping: Mapping
    levels: bool
    before: frozenset[str]

    def shapes(self) -> tuple[Shape, ...]:
        """The shapes of the copy."""
        mine = set(self.names.values()) - set(self.names)
        return tuple(each for each in self.whole.geometry if each.name in mine)

    def of(self, ref: PointRef) -> PointRef:
        """The point of the copy that a point goes to; an arc that is mirrored runs the other
        way."""
        swaps = self.mapping.mirrors and isinstance(self.whole.shape(ref.shape), Arc)
        stays = self.names[ref.shape] == ref.shape
        which = _SWAPPED.get(ref.which, ref.which) if swaps and not stays else ref.which
        return PointRef(self.names[ref.shape], which)

    def same(self, one: PointRef) -> bool:
        """Whether a point is one with its own copy."""
        return self.whole.meetings.same(one, self.of(one))

    def points(self) -> Iterator[PointRef]:
        """The points that are copied, of those that are one the first, without those that stay."""
        seen: set[PointRef] = set()
        for shape in self.whole.geometry:
            if self.names.get(shape.name, shape.name) == shape.name:
                continue
            for ref in points_of(shape):
                leader = self.whole.meetings.leader(ref)
                if leader not in seen and not self.same(ref):
                    yield ref
                seen.add(leader)

    def said(self) -> Iterator[Constraint]:
        """What is said without a number among the shapes that are copied, of their copies."""
        kinds = (*RELATIONS, *LEVELS) if self.levels else RELATIONS
        for constraint in self.all_said():
            if isinstance(constraint, kinds):
                yield constraint

    def all_said(self) -> Iterator[Constraint]:
        """What is said among the shapes that are copied, of their copies; where what is level stays
        so, also of their directions against the axes. Without what the copies have by sharing
        points, and without what lies fixed."""
        mine = set(self.names)
        for constraint in self.whole.constraints:
            about = named(constraint)
            directed = self.levels and isinstance(constraint, DIRECTED)
            about -= DIRECTIONS if directed else frozenset()
            if not about or not about <= mine or isinstance(constraint, Fixed):
                continue
            copied = with_refs(replace(constraint, name=None), self.of, self._of_shape)
            if copied != replace(constraint, name=None) and not self._has(copied):
                yield _apart(copied)

    def _has(self, constraint: Constraint) -> bool:
        """Whether a constraint only says that two points are one, and they are drawn so."""
        match constraint:
            case Coincident(one, other):
                return self.whole.meetings.same(one, other)
            case Concentric(first, second):
                return self.whole.meetings.same(
                    *(PointRef(each.name, Which.CENTRE) for each in (first, second)))
        return False

    def drawn(self, drawing: Drawing, mapping: Mapping) -> Drawing:
        """Another drawing of the same shapes with this copy, where its own places go in that."""
        back = {self.of(ref): ref for name in self.names
                for ref in points_of(_shape(drawing, name))}
        made: list[Shape] = []
        for shape in self.shapes():
            for ref in points_of(shape):
                if not isinstance(spot_of(shape, ref.which), PointRef):
                    place = mapping.at(drawing.drawn(back[ref]))
                    shape = with_spot(shape, ref.which, place)
            if isinstance(shape, Circle):
                old = back[PointRef(shape.name, Which.CENTRE)].shape
                shape = replace(shape, radius_um=drawing.drawn_radius_um(old))
            made.append(shape)
        return with_shapes(drawing, made)

    def _of_shape(self, ref: ShapeRef) -> ShapeRef:
        """The shape of the copy that a shape goes to; another than those that are copied stays."""
        return ShapeRef(self.names.get(ref.name, ref.name))


def _apart(constraint: Constraint) -> Constraint:
    """What is said of two shapes at a point, said of the two alone: their copies share it."""
    if isinstance(constraint, (Tangent, Perpendicular)):
        return replace(constraint, at=None)
    return constraint


def _shape(drawing: Drawing, name: str) -> Shape:
    return next(each for each in drawing.geometry if each.name == name)


def copied(drawing: Drawing, shapes: tuple[str, ...], mapping: Mapping, levels: bool,
           taken: frozenset[str] = frozenset()) -> Copy:
    """A drawing with a copy of some of its shapes; what is mirrored or turned to where it is stays
    single. levels: whether what is level or upright stays so. taken: names that aren't free either.
    Raises WordFault where one doesn't stand."""
    for name in shapes:
        standing(drawing.scene, name, name)
    chosen = [each for each in drawing.geometry if each.name in set(shapes)]
    if not chosen:
        raise WordFault("nothing", "is selected that could be copied: select shapes")
    return _Copying(drawing, mapping, tuple(chosen), taken).copy(levels)


@dataclass(frozen=True)
class _Copying:
    """Some shapes of a drawing that are copied."""

    drawing: Drawing
    mapping: Mapping
    chosen: tuple[Shape, ...]
    taken: frozenset[str]

    def copy(self, levels: bool) -> Copy:
        """The drawing with their copy."""
        names = self._names()
        spots = self._staying()
        made = [self._made(shape, names, spots)
                for shape in sorted(self.chosen, key=lambda each: not isinstance(each, Point))
                if names[shape.name] != shape.name]
        before = frozenset(each.name for each in self.drawing.geometry)
        return Copy(with_shapes(self.drawing, made), names, self.mapping, levels, before)

    def _names(self) -> dict[str, str]:
        """The names of the copies; a shape that stays where it is keeps its own."""
        names: dict[str, str] = {}
        scratch = self.drawing
        for shape in self.chosen:
            if self._stays_whole(shape):
                names[shape.name] = shape.name
                continue
            name = free_name(scratch, _FIGURE[type(shape)], self.taken)
            names[shape.name] = name
            scratch = replace(scratch, geometry=(*scratch.geometry, replace(shape, name=name)))
        return names

    def _stays_whole(self, shape: Shape) -> bool:
        return not self.mapping.shifts and all(self._stays(ref) for ref in points_of(shape))

    def _stays(self, ref: PointRef) -> bool:
        """Whether a point goes to where it is."""
        place = self.drawing.drawn(ref)
        (x, y), (u, v) = numbers(place), self.mapping.exactly(numbers(place))
        return abs(x - u) <= NEAR_UM and abs(y - v) <= NEAR_UM

    def _staying(self) -> dict[PointRef, Anchor]:
        """The points that go to where they are, each for itself."""
        meetings = self.drawing.meetings
        return {meetings.leader(ref): ref for shape in self.chosen for ref in points_of(shape)
                if self._stays(ref) and self.mapping.mirrors}

    def _made(self, shape: Shape, names: Names[str, str],
              spots: dict[PointRef, Anchor]) -> Shape:
        """The copy of a shape. spots: where the copies of points are, by the first of those that
        are one."""
        swaps = self.mapping.mirrors and isinstance(shape, Arc)
        made: dict[str, object] = {"name": names[shape.name], "outer": False}
        for ref in points_of(shape):
            which = _SWAPPED.get(ref.which, ref.which) if swaps else ref.which
            leader = self.drawing.meetings.leader(ref)
            place = self.mapping.at(self.drawing.drawn(ref))
            made[which.value] = spots.get(leader, place) if not isinstance(shape, Point) else place
            spots.setdefault(leader, PointRef(names[shape.name], which))
        return replace(shape, **made)
