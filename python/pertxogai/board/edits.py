"""The edits of the board: each makes another drawing of one. All raise WordFault or DrawingUnsound
where the drawing's words don't allow it."""
from __future__ import annotations

from collections.abc import Iterable, Iterator, Sequence
from contextlib import contextmanager
from dataclasses import dataclass, replace
from fractions import Fraction

from pertxogai.board.anchors import leader_of, with_spot
from pertxogai.board.corners import Corner
from pertxogai.board.figures import centre_rectangle, polygon, slot, tangent_arc
from pertxogai.board.labelling import Label, Measure
from pertxogai.board.line_reader import asking, constraint_at, drawn, valued
from pertxogai.board.more_lines import with_constraints, with_shapes
from pertxogai.board.new_names import Figure, free_name
from pertxogai.board.offsetting import Offset
from pertxogai.board.pasting import Paste
from pertxogai.board.patterns import Mirror, Ring, Row
from pertxogai.board.removal import without
from pertxogai.board.trimming import Extend, Trim
from pertxogai.board.typed import value_word
from pertxogai.board.values import DropValue, SetValue
from pertxogai.drawing import (
    Anchor, Circle, Constraint, Drawing, DrawingUnsound, Place, PointRef, Shape, ShapeRef,
    WordFault, points_of)
from pertxogai.drawing.checks import standing
from pertxogai.drawing.labels import renamed_in_notes, without_references
from pertxogai.drawing.mentions import with_refs
from pertxogai.drawing.numbers import mm_text
from pertxogai.drawing.shorthands import Expansion


@dataclass(frozen=True)
class Draw:
    """Draws a figure through spots, under a free name: a segment or a rectangle from corner to
    corner, a circle from its centre with a radius, an arc from its centre, counter-clockwise
    from start to end, a slot round two centres with a radius, a regular polygon of so many sides
    or a rectangle from the centre to a corner, an arc that goes on from an end. asks: what is asked
    for with it, each by the words of a line in which `*` stands for that name."""

    figure: Figure
    spots: tuple[Anchor, ...]
    radius_um: Fraction | None = None
    construction: bool = False
    asks: tuple[tuple[str, ...], ...] = ()
    sides: int = 0

    def on(self, drawing: Drawing) -> Drawing:
        """The drawing with it."""
        name = free_name(drawing, self.figure)
        said = self._said(drawing, name)
        shapes = tuple(replace(shape, construction=shape.construction or self.construction)
                       for shape in said.shapes)
        whole = with_constraints(with_shapes(drawing, shapes), said.constraints)
        return _asking(whole, ([_named(word, name) for word in each] for each in self.asks))

    def _said(self, drawing: Drawing, name: str) -> Expansion:
        """The shapes of the figure, and what it asks for by itself."""
        match self.figure:
            case Figure.SLOT:
                if self.radius_um is None:
                    raise WordFault(name, "needs a radius")
                return slot(drawing, name, self.spots, self.radius_um)
            case Figure.POLYGON:
                return polygon(drawing, name, self.spots, self.sides)
            case Figure.CENTRE_RECTANGLE:
                return centre_rectangle(drawing, name, self.spots)
            case Figure.TANGENT_ARC:
                return tangent_arc(drawing, name, self.spots)
        words = [self.figure.value, name, *(_words(spot) for spot in self.spots)]
        if self.radius_um is not None:
            words.append(mm_text(self.radius_um))
        return drawn(drawing.geometry, " ".join(words).split())


@dataclass(frozen=True)
class Move:
    """Draws points elsewhere: each, and all that share its place. asks: what is asked for with it,
    each by the words of a line."""

    moves: tuple[tuple[PointRef, Place], ...]
    radii: tuple[tuple[str, Fraction], ...] = ()
    asks: tuple[tuple[str, ...], ...] = ()

    def on(self, drawing: Drawing) -> Drawing:
        """The drawing with its points there."""
        shapes = {shape.name: shape for shape in drawing.geometry}
        for ref, place in self.moves:
            leader = leader_of(drawing, ref)
            if leader.shape in shapes:
                shapes[leader.shape] = with_spot(shapes[leader.shape], leader.which, place)
        for name, radius in self.radii:
            rim = shapes.get(name)
            if isinstance(rim, Circle):
                shapes[name] = replace(rim, radius_um=radius)
        return _asking(replace(drawing, geometry=tuple(shapes.values())), self.asks)


@dataclass(frozen=True)
class Shift:
    """Draws whole shapes, and points, a way further."""

    shapes: tuple[str, ...]
    points: tuple[PointRef, ...]
    dx_um: Fraction
    dy_um: Fraction

    def on(self, drawing: Drawing) -> Drawing:
        """The drawing with them there."""
        leaders = {leader_of(drawing, ref): None for ref in self._refs(drawing)}
        return Move(tuple((ref, self._there(drawing.drawn(ref))) for ref in leaders)).on(drawing)

    def _refs(self, drawing: Drawing) -> tuple[PointRef, ...]:
        shapes = [each for each in drawing.geometry if each.name in self.shapes]
        return (*self.points, *(ref for shape in shapes for ref in points_of(shape)))

    def _there(self, place: Place) -> Place:
        return Place(place.x_um + self.dx_um, place.y_um + self.dy_um)


@dataclass(frozen=True)
class Erase:
    """Takes shapes away, with all that is asked of them, constraints by their places, and
    dimensions that are only measured by theirs."""

    shapes: tuple[str, ...]
    constraints: tuple[int, ...]
    references: tuple[int, ...] = ()

    def on(self, drawing: Drawing) -> Drawing:
        """The drawing without them."""
        measured = without_references(drawing, frozenset(self.references))
        return without(measured, frozenset(self.shapes), frozenset(self.constraints))


@dataclass(frozen=True)
class Ask:
    """Asks for what a line says, as `length Bottom`, and the value behind it, as `40`. reference:
    the dimension that only measured it, by its place among those, which goes."""

    words: tuple[str, ...]
    value: str | None = None
    reference: int | None = None

    def on(self, drawing: Drawing) -> Drawing:
        """The drawing with that constraint, the last. Raises DrawingUnsound, with the words, where
        the value isn't what they take."""
        if self.reference is not None:
            drawing = without_references(drawing, frozenset({self.reference}))
        if self.value is None:
            return asking(drawing, list(self.words))
        with faults_of(" ".join(self.words)):
            return asking(drawing, [*self.words, value_word(self.value)])


@dataclass(frozen=True)
class Lines:
    """Asks for what each of some lines says, as `length Bottom 40`."""

    lines: tuple[str, ...]

    def on(self, drawing: Drawing) -> Drawing:
        """The drawing with those constraints, the last."""
        return _asking(drawing, (line.split() for line in self.lines))


@dataclass(frozen=True)
class Value:
    """Gives the constraint at a place, from 1, another value."""

    number: int
    value: str

    def on(self, drawing: Drawing) -> Drawing:
        """The drawing with that value. Raises DrawingUnsound, with what the constraint is called,
        where that isn't what it takes."""
        old = constraint_at(drawing, self.number)
        with faults_of(drawing.called(self.number)):
            return _with(drawing, self.number, valued(drawing, old, self.value))


@dataclass(frozen=True)
class Call:
    """Names the constraint at a place, from 1; takes its name away where it is empty."""

    number: int
    name: str

    def on(self, drawing: Drawing) -> Drawing:
        """The drawing with that name."""
        old = constraint_at(drawing, self.number)
        name = " ".join(self.name.split()) or None
        return _with(drawing, self.number, replace(old, name=name))


@dataclass(frozen=True)
class Rename:
    """Gives a shape another name, wherever it is spoken of."""

    old: str
    new: str

    def on(self, drawing: Drawing) -> Drawing:
        """The drawing with that name."""
        standing(drawing.scene, self.old, self.old)
        return replace(
            renamed_in_notes(drawing, self.old, self.new),
            geometry=tuple(map(self._shape, drawing.geometry)),
            constraints=tuple(map(self._said, drawing.constraints)),
            tolerancing=drawing.tolerancing.saying(self._said))

    def _said(self, constraint: Constraint) -> Constraint:
        return with_refs(constraint, self._point, lambda ref: ShapeRef(self._of(ref.name)))

    def _shape(self, shape: Shape) -> Shape:
        return replace(with_refs(shape, self._point), name=self._of(shape.name))

    def _point(self, ref: PointRef) -> PointRef:
        return replace(ref, shape=self._of(ref.shape))

    def _of(self, name: str) -> str:
        return self.new if name == self.old else name


@dataclass(frozen=True)
class Construction:
    """Makes shapes construction, or edges of the part again."""

    shapes: tuple[str, ...]
    construction: bool

    def on(self, drawing: Drawing) -> Drawing:
        """The drawing with them so."""
        return replace(drawing, geometry=tuple(
            replace(each, construction=self.construction) if each.name in self.shapes else each
            for each in drawing.geometry))


@contextmanager
def faults_of(where: str) -> Iterator[None]:
    """Has a word at fault told with what it is said of. Raises DrawingUnsound."""
    try:
        yield
    except WordFault as fault:
        raise DrawingUnsound(where, fault.word, fault.what) from None


Edit = (Draw | Move | Shift | Erase | Ask | Measure | Label | Lines | Value | Call | Rename
        | Construction | Corner | Trim | Extend | Mirror | Row | Ring | Offset | Paste
        | SetValue | DropValue)


def _asking(drawing: Drawing, asks: Iterable[Sequence[str]]) -> Drawing:
    """A drawing in which some lines are asked for besides, one after the other."""
    for words in asks:
        drawing = asking(drawing, list(words))
    return drawing


def _named(word: str, name: str) -> str:
    """A word in which a `*` in front stands for a name."""
    return name + word[1:] if word.startswith("*") else word


def _words(spot: Anchor) -> str:
    if isinstance(spot, PointRef):
        return str(spot)
    return f"{mm_text(spot.x_um)} {mm_text(spot.y_um)}"


def _with(drawing: Drawing, number: int, constraint: Constraint) -> Drawing:
    constraints = list(drawing.constraints)
    constraints[number - 1] = constraint
    return replace(drawing, constraints=tuple(constraints))
