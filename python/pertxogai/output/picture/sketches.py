"""Pictures of sketches: as drawn, as placed, and part by part."""
from __future__ import annotations

import math
from collections.abc import Iterator, Mapping, Sequence
from dataclasses import dataclass
from functools import cached_property

from pertxogai.language import Angle, Block, Constraint, Distance, Sketch
from pertxogai.language.numbers import degrees_text, mm_text
from pertxogai.output.picture.marks import (
    Dimension, Dot, Ink, LengthBar, Manner, Mark, PointMm, Ring, Scene, Square, Stroke, Tag)
from pertxogai.output.picture.placed import (
    Laid, LaidElement, LaidLine, as_drawn, as_placed, foot_on, laid_on, middle_of, segments)
from pertxogai.output.picture.plane import crossing, unit
from pertxogai.output.picture.svg import Picture, picture_of
from pertxogai.program.reports import Part, PartsReport, PlacedPart, Shape, Solved, Spare

BAR = Ink(Manner.BAR)
SPARE = Ink(Manner.SPARE)


def picture_of_drawing(
    sketch: Sketch, title: str = "a sketch as drawn", below: Sequence[str] = ()
) -> Picture:
    """The sketch as drawn, with its dimensions, and lines of text below it."""
    layout = _Layout(sketch, as_drawn(sketch.elements))
    dimensions = tuple(layout.dimensions(sketch.constraints, BAR))
    legend = tuple((line, Ink()) for line in below)
    return picture_of(Scene(title, tuple(layout.marks(Ink())), dimensions, legend))


def picture_of_shape(sketch: Sketch, shape: Shape, title: str = "a sketch as placed") -> Picture:
    """The sketch as placed, in the coordinates of its positions, with its dimensions."""
    layout = _Layout(sketch, as_placed(shape.places))
    return picture_of(
        Scene(title, tuple(layout.marks(Ink())), tuple(layout.dimensions(sketch.constraints, BAR)))
    )


def picture_of_parts(
    sketch: Sketch,
    report: PartsReport,
    spare: Sequence[Spare] = (),
    title: str = "the parts of a sketch",
) -> Picture:
    """The rigid clusters of a sketch, each in a colour, its own shape laid on the drawing; as drawn
    if it has no shape. The removable constraints (`spare`) are marked."""
    marks: list[Mark] = []
    dimensions: list[Dimension] = []
    legend: list[tuple[str, Ink]] = []
    may_go = {it.number for it in spare}
    for placed in report.parts:
        layout, ink = _layout_of(sketch, placed), Ink(part=placed.part.number)
        own = _own(sketch, placed.part)
        marks += layout.marks(ink)
        dimensions += layout.dimensions([it for number, it in own if number not in may_go], BAR)
        dimensions += layout.marked(own, may_go)
        legend.append((_legend(placed.part.text(), placed.shape), ink))
    below = (*legend, *_spare_legend(spare))
    return picture_of(Scene(title, _once(marks), tuple(dimensions), below))


def _layout_of(sketch: Sketch, placed: PlacedPart) -> _Layout:
    """A part where its own shape is laid on the drawing, or as it is drawn."""
    drawn = as_drawn(sketch.elements)
    if isinstance(placed.shape, Solved):
        return _Layout(sketch, laid_on(as_placed(placed.shape.places), drawn))
    return _Layout(sketch, [it for it in drawn if it.name in placed.part.elements])


def _own(sketch: Sketch, part: Part) -> list[tuple[int, Constraint]]:
    """The constraints that name elements of a part alone, with their numbers."""
    names = set(part.elements)
    numbered = enumerate(sketch.constraints, 1)
    return [(number, it) for number, it in numbered if names.issuperset(it.names())]


def _once(marks: Sequence[Mark]) -> tuple[Mark, ...]:
    """The marks, each that stands twice in one place once: an element that parts share."""
    seen: set[tuple[str, PointMm]] = set()
    kept = []
    for mark in marks:
        at = (
            mark.start
            if isinstance(mark, Stroke)
            else mark.at
            if isinstance(mark, Dot)
            else mark.centre
        )
        key = mark.name, (round(at[0], 3), round(at[1], 3))
        if key not in seen:
            kept.append(mark)
        seen.add(key)
    return tuple(kept)


def _legend(line: str, shape: object) -> str:
    head, _, names = line.strip().partition(" : ")
    words = head.split()
    state = f"over-constrained, constraints {words[6]}, required {words[8]}"
    if words[2] == "sound":
        state = "placed" if isinstance(shape, Solved) else "can't be placed, shown as drawn"
    names = names if len(names) <= 60 else names[:57] + ".."
    return f"part {words[1]}, {state}: {names}"


def _spare_legend(spare: Sequence[Spare]) -> Iterator[tuple[str, Ink]]:
    if spare:
        names = ", ".join(f"c{it.number}" for it in spare)
        shown = names if len(names) <= 60 else names[:57] + ".."
        yield f"removable, each by itself: {shown}", SPARE


@dataclass(frozen=True)
class _Layout:
    """Elements of a sketch where a picture shows them."""

    sketch: Sketch
    elements: Sequence[LaidElement]

    @cached_property
    def lines(self) -> Mapping[str, tuple[PointMm, PointMm]]:
        """The segment that stands for each line."""
        return segments(self.sketch, self.elements)

    @cached_property
    def at(self) -> Mapping[str, PointMm]:
        """The place of each point and centre."""
        return {it.name: it.at for it in self.elements if isinstance(it, Laid)}

    def marks(self, ink: Ink) -> Iterator[Mark]:
        """The elements as marks, in their order."""
        for it in self.elements:
            if isinstance(it, LaidLine):
                yield Stroke(*self.lines[it.name], it.name, ink)
            else:
                yield Ring(it.at, it.radius, it.name, ink) if it.radius else Dot(
                    it.at, it.name, ink
                )

    def dimensions(self, constraints: Sequence[Constraint], ink: Ink) -> Iterator[Dimension]:
        """The dimensions of constraints, and the radii of circles."""
        for constraint in constraints:
            yield from self._dimensions(constraint, ink, None)
        if ink == BAR:
            for it in self.elements:
                if isinstance(it, Laid) and it.radius:
                    yield Tag(it.at, it.radius, f"R{mm_text(round(it.radius * 1000))}", ink)

    def marked(
        self, own: Sequence[tuple[int, Constraint]], may_go: set[int]
    ) -> Iterator[Dimension]:
        """Those constraints that may go, with their numbers."""
        for number, constraint in own:
            if number in may_go:
                shown = list(self._dimensions(constraint, SPARE, f"c{number}"))
                yield from shown or [self._tag(constraint, number)]

    def _tag(self, constraint: Constraint, number: int) -> Dimension:
        """A constraint that has no dimension, as a text near its first element."""
        names = constraint.names()
        at = next((self.at[name] for name in names if name in self.at), None) or middle_of(
            self.lines[names[0]]
        )
        return Tag(at, 0.0, f"c{number} {constraint.text().split()[0]}", SPARE)

    def _dimensions(
        self, constraint: Constraint, ink: Ink, number: str | None
    ) -> Iterator[Dimension]:
        if isinstance(constraint, Distance):
            yield from self._distance(constraint, ink, number)
        elif isinstance(constraint, Angle):
            yield from self._angle(constraint, ink, number)
        elif isinstance(constraint, Block):
            names = constraint.names()
            sides = (
                [(names[0], names[1])]
                if len(names) == 2
                else list(zip(names, names[1:] + names[:1]))
            )
            for place, (one, two) in enumerate(sides):
                yield LengthBar(
                    self.at[one], self.at[two], number if number and not place else "", ink
                )

    def _distance(self, constraint: Distance, ink: Ink, number: str | None) -> Iterator[Dimension]:
        first, second = constraint.names()
        if first in self.lines:
            first, second = second, first
        end = (
            foot_on(self.at[first], self.lines[second])
            if second in self.lines
            else self.at[second]
        )
        text = mm_text(constraint.length_um)
        yield LengthBar(self.at[first], end, f"{number}: {text}" if number else text, ink)

    def _angle(self, constraint: Angle, ink: Ink, number: str | None) -> Iterator[Dimension]:
        one, two = self.lines[constraint.first], self.lines[constraint.second]
        corner = crossing(one, two)
        if corner is None or not (_is_near(corner, one) and _is_near(corner, two)):
            corner = None
        if constraint.q == 0 and corner and number is None:
            yield Square(corner, _towards(corner, one), _towards(corner, two), ink)
            return
        text = f"{degrees_text(constraint.p, constraint.q)}°"
        text = text if corner else f"{text} to {constraint.first}"
        yield Tag(corner or middle_of(two), 0.0, f"{number}: {text}" if number else text, ink)


def _is_near(place: PointMm, segment: tuple[PointMm, PointMm]) -> bool:
    """Whether a place lies on a segment, or no further off than a tenth of its length."""
    length = math.dist(*segment)
    return max(math.dist(place, end) for end in segment) <= 1.1 * length


def _towards(corner: PointMm, segment: tuple[PointMm, PointMm]) -> PointMm:
    """The direction from a corner to the further end of a segment."""
    end = max(segment, key=lambda it: math.dist(it, corner))
    return unit(end[0] - corner[0], end[1] - corner[1])
