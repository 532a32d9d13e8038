"""Pictures of a designer's drawing: as drawn, or as placed, with the dimensions that were asked
for."""
from __future__ import annotations

import math
from collections.abc import Iterator, Mapping, Sequence
from dataclasses import dataclass, field
from fractions import Fraction
from functools import cached_property

from pertxogai.drawing import (
    AngleBetween, AngleValue, Arc, Axis, Circle, Constraint, Degrees, Diameter, Distance, Drawing,
    Length, Pair, ParallelDistance, Point, PointLineDistance, PointRef, Radius, Segment, Shape,
    ShapeRef, Which, XDistance, YDistance)
from pertxogai.drawing.numbers import decimal_text, mm_text
from pertxogai.judging.measure import Solution
from pertxogai.language.numbers import degrees_text
from pertxogai.output.picture.marks import (
    Arrow, Bow, Dimension, Dot, Ink, LengthBar, Manner, Mark, PointMm, Ring, Scene, Stroke, Tag)
from pertxogai.output.picture.plane import between, crossing, foot, sweep, unit
from pertxogai.output.picture.svg import Picture, picture_of
from pertxogai.spelling.linear import Number

BAR = Ink(Manner.BAR)
SPARE = Ink(Manner.SPARE)


@dataclass(frozen=True)
class Marking:
    """What a picture of a drawing shows beside its shapes: the rigid cluster of each shape, by its
    name; the numbers, from 1, of the removable constraints; the lines of text below; the shapes
    that are free; and the directions in which points can still move."""

    parts: Mapping[str, int] = field(default_factory=dict)
    spare: frozenset[int] = frozenset()
    legend: tuple[tuple[str, Ink], ...] = ()
    free: frozenset[str] = frozenset()
    moves: tuple[tuple[PointRef, PointMm], ...] = ()


def picture_of_designed(
    drawing: Drawing,
    solution: Solution | None = None,
    title: str = "a drawing",
    marking: Marking = Marking(),
) -> Picture:
    """A drawing as drawn, or at its solved position, in the coordinates of its datum."""
    return picture_of(scene_of_designed(drawing, solution, title, marking))


def scene_of_designed(
    drawing: Drawing,
    solution: Solution | None = None,
    title: str = "a drawing",
    marking: Marking = Marking(),
) -> Scene:
    """The same as a scene, to which more can be added."""
    where = DrawnPlaces(drawing, solution)
    marks = tuple(where.mark(shape, marking.parts.get(shape.name), shape.name in marking.free)
                  for shape in drawing.geometry)
    dimensions: list[Dimension] = [Arrow(where.at(ref), way) for ref, way in marking.moves]
    for number, constraint in enumerate(drawing.constraints, 1):
        if number in marking.spare:
            dimensions += where.spare(constraint, drawing.called(number))
        else:
            dimensions += where.dimensions(constraint, BAR)
    return Scene(title, marks, tuple(dimensions), marking.legend)


@dataclass(frozen=True)
class DrawnPlaces:
    """Where the shapes of a drawing lie, in millimetres from its datum: as drawn, or as placed."""

    drawing: Drawing
    solution: Solution | None

    def at(self, ref: PointRef) -> PointMm:
        """The place of a point. Raises MissingPlace where it isn't placed."""
        known = self._known.get(ref)
        if known is None:
            known = self._known[ref] = self._at(ref)
        return known

    @cached_property
    def _known(self) -> dict[PointRef, PointMm]:
        """The places that were asked for."""
        return {}

    def _at(self, ref: PointRef) -> PointMm:
        if self.solution is None:
            place = self.drawing.drawn(ref)
            return float(place.x_um) / 1e3, float(place.y_um) / 1e3
        x, y = self.solution.spot(ref)
        (left, low), way = self._frame
        dx, dy = float(x - left) / 1e6, float(y - low) / 1e6
        return way[0] * dx + way[1] * dy, way[0] * dy - way[1] * dx

    @cached_property
    def _frame(self) -> tuple[tuple[Number, Number], PointMm]:
        """The placed origin in nanometres, and the direction of the placed x axis."""
        assert self.solution is not None
        frame = self.solution.frame
        return frame.origin, unit(float(frame.right[0]), float(frame.right[1]))

    def radius(self, name: str) -> float:
        """The radius of a circle or arc. Raises MissingPlace."""
        if self.solution is None:
            return float(self.drawing.drawn_radius_um(name)) / 1e3
        return float(self.solution.radius(name)) / 1e6

    def mark(self, shape: Shape, part: int | None, is_free: bool = False) -> Mark:
        """A shape as a mark, with the colour of a part; lighter where it is free."""
        manner = Manner.FREE if is_free else Manner.EDGE
        ink = Ink(Manner.CONSTRUCTION if shape.construction or shape.outer else manner, part)
        name = shape.name
        match shape:
            case Point():
                return Dot(self.at(PointRef(name)), name, ink)
            case Segment():
                return Stroke(*self.ends(name), name, ink)
            case Circle():
                return Ring(self.at(PointRef(name, Which.CENTRE)), self.radius(name), name, ink)
            case Arc():
                return Bow(self.at(PointRef(name, Which.CENTRE)), *self.ends(name), name, ink)

    def ends(self, name: str) -> tuple[PointMm, PointMm]:
        """The ends of a segment, arc, or axis of the datum."""
        known = self._known_ends.get(name)
        if known is None:
            known = self._known_ends[name] = self._ends(name)
        return known

    @cached_property
    def _known_ends(self) -> dict[str, tuple[PointMm, PointMm]]:
        """The ends that were asked for, by the names of their shapes."""
        return {}

    def _ends(self, name: str) -> tuple[PointMm, PointMm]:
        shape = self.drawing.shape(name)
        if isinstance(shape, Axis):
            return (0.0, 0.0), ((0.0, 1.0) if shape.upwards else (1.0, 0.0))
        return self.at(PointRef(name, Which.START)), self.at(PointRef(name, Which.END))

    def spare(self, constraint: Constraint, name: str) -> Sequence[Dimension]:
        """A constraint that may go: its dimension, or its name at the first thing that it
        names."""
        shown = list(self.dimensions(constraint, SPARE))
        of = next(
            (it for it in vars(constraint).values() if isinstance(it, (PointRef, ShapeRef, Pair))),
            None,
        )
        return shown or ([Tag(self._place_of(of), 0.0, name, SPARE)] if of else [])

    def _place_of(self, thing: PointRef | ShapeRef | Pair) -> PointMm:
        """A place at which a text tells of a thing: a point, or the middle of a segment, arc or
        circle."""
        if isinstance(thing, Pair):
            return between(self.at(thing.first), self.at(thing.second), 0.5)
        if isinstance(thing, PointRef):
            return self.at(thing)
        if isinstance(self.drawing.shape(thing.name), (Arc, Circle)):
            return self._rim(thing)[0]
        return between(*self.ends(thing.name), 0.5)

    def dimensions(self, constraint: Constraint, ink: Ink) -> Iterator[Dimension]:
        """The dimension that a constraint is shown as; none for those that have no number."""
        match constraint:
            case Length(segment, value):
                yield LengthBar(*self.ends(segment.name), mm(value), ink)
            case Distance(first, second, value):
                yield LengthBar(self.at(first), self.at(second), mm(value), ink)
            case XDistance(first, second, value) | YDistance(first, second, value):
                is_x = isinstance(constraint, XDistance)
                yield self._run(is_x, self.at(first), self.at(second), mm(abs(value)), ink)
            case PointLineDistance(point, line, value):
                yield self._height(self.at(point), line, mm(value), ink)
            case ParallelDistance(first, second, value):
                yield self._height(between(*self.ends(first.name), 0.5), second, mm(value), ink)
            case Radius(rim, value):
                yield Tag(*self._rim(rim), f"R{mm(value)}", ink)
            case Diameter(rim, value):
                yield Tag(*self._rim(rim), f"Ø{mm(value)}", ink)
            case AngleBetween():
                yield self._angle(constraint, ink)

    def _run(self, is_x: bool, first: PointMm, second: PointMm, text: str, ink: Ink) -> Dimension:
        """A dimension along an axis, at the height of its second point."""
        start = (first[0], second[1]) if is_x else (second[0], first[1])
        return LengthBar(start, second, text, ink)

    def _height(self, start: PointMm, line: ShapeRef, text: str, ink: Ink) -> Dimension:
        """A dimension from a place straight to a line."""
        return LengthBar(start, foot(start, *self.ends(line.name)), text, ink)

    def _rim(self, rim: ShapeRef) -> tuple[PointMm, float]:
        """Where the dimension of a rim stands: around a circle, or at the middle of an arc."""
        centre, radius = self.at(PointRef(rim.name, Which.CENTRE)), self.radius(rim.name)
        if isinstance(self.drawing.shape(rim.name), Circle):
            return centre, radius
        first, turn = sweep(centre, *self.ends(rim.name))
        middle = first + turn / 2
        return (centre[0] + radius * math.cos(middle), centre[1] + radius * math.sin(middle)), 0.0

    def _angle(self, angle: AngleBetween, ink: Ink) -> Dimension:
        one, two = self.ends(angle.first.name), self.ends(angle.second.name)
        corner = crossing(one, two)
        near = corner is not None and min(
            math.dist(corner, end) for end in (*one, *two)
        ) <= math.dist(*one)
        at = corner if corner and near else between(*two, 0.5)
        return Tag(at, 0.0, degrees_told(angle.value), ink)


def mm(um: Fraction) -> str:
    """Micrometres as a number of millimetres to read, exact to the nanometre."""
    return mm_text(round(um, 3))


def degrees_told(value: AngleValue) -> str:
    """An angle to read, without its sign, exact to a millionth of a degree; a ratio to a
    ten-thousandth."""
    if isinstance(value, Degrees):
        return f"{decimal_text(round(abs(value.value), 6))}°"
    return f"{degrees_text(value.p, value.q)}°"
