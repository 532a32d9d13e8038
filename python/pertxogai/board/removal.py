"""A drawing without some of its shapes and constraints."""
from __future__ import annotations

from collections.abc import Iterator
from dataclasses import dataclass, field, replace

from pertxogai.board.anchors import leader_of, with_spot
from pertxogai.board.head_lines import with_head
from pertxogai.drawing import Anchor, Drawing, Note, PointRef, Shape, points_of
from pertxogai.drawing.mentions import named
from pertxogai.drawing.named_shapes import spot_of


def without(drawing: Drawing, shapes: frozenset[str], numbers: frozenset[int]) -> Drawing:
    """The drawing without these shapes, without the constraints of these places, from 1, and
    without those that speak of such a shape. A point that others share is handed on to them."""
    heirs = _Heirs(drawing, shapes)
    kept = tuple(heirs.freed(shape) for shape in drawing.geometry if shape.name not in shapes)
    asks = [number for number, each in enumerate(drawing.constraints, 1)
            if number not in numbers and not shapes.intersection(named(each))]
    said = tuple(drawing.constraints[number - 1] for number in asks)
    notes = tuple(_notes(drawing, shapes, frozenset(asks)))
    checks = drawing.tolerancing.without(shapes)
    made = replace(drawing, geometry=kept, constraints=said, notes=notes)
    return with_head(made, tolerancing=checks)


@dataclass(frozen=True)
class _Heirs:
    """Which point takes the place of each point of a shape that goes."""

    drawing: Drawing
    gone: frozenset[str]
    heir: dict[PointRef, PointRef] = field(default_factory=dict)

    def freed(self, shape: Shape) -> Shape:
        """A shape that stays, without the points of those that go."""
        for ref in points_of(shape):
            spot = spot_of(shape, ref.which)
            if isinstance(spot, PointRef):
                shape = with_spot(shape, ref.which, self._spot(ref, spot))
        return shape

    def _spot(self, ref: PointRef, spot: PointRef) -> Anchor:
        if spot.shape not in self.gone:
            return spot
        leader = self._last(spot)
        if leader.shape not in self.gone:
            return leader
        if leader in self.heir:
            return self.heir[leader]
        self.heir[leader] = ref
        return self.drawing.drawn(leader)

    def _last(self, spot: PointRef) -> PointRef:
        """The first point that stays behind one that goes, or the one that has the place."""
        while spot.shape in self.gone and spot != leader_of(self.drawing, spot):
            spot = self._next(spot)
        return spot

    def _next(self, ref: PointRef) -> PointRef:
        spot = spot_of(self.drawing.shape(ref.shape), ref.which)
        assert isinstance(spot, PointRef)
        return spot


def _notes(drawing: Drawing, gone: frozenset[str], asks: frozenset[int]) -> Iterator[Note]:
    """The notes that stay: each with what it stands at, and those on lines of their own with
    what comes next."""
    stays = [*(shape.name not in gone for shape in drawing.geometry),
             *(number in asks for number in range(1, len(drawing.constraints) + 1))]
    for note in drawing.notes:
        if note.before < 0:
            yield note
            continue
        place = min(note.before, len(stays))
        if note.beside and not stays[place]:
            continue
        yield Note(note.text, sum(stays[:place]), note.beside)
