"""What of each constraint is drawn on the board: its dimension, or a small sign at each thing
that it speaks of."""
from __future__ import annotations

import math
from collections.abc import Iterable, Iterator, Mapping
from contextlib import suppress
from dataclasses import dataclass
from typing import cast

from pertxogai.board.protocol import Mark, MarkAlone
from pertxogai.board.values_shown import value_shown
from pertxogai.drawing import (
    AngleBetween, Arc, Axis, Circle, Coincident, Collinear, Concentric, Constraint, Degrees,
    Diameter, Equal, Fixed, Horizontal, Midpoint, Pair, Parallel, Perpendicular, PointOn, PointRef,
    Radius, ShapeRef, Symmetric, Tangent, Vertical, Which)
from pertxogai.drawing.labels import Offset, Reference
from pertxogai.drawing.mentions import refs_of
from pertxogai.judging.measure.solution import MissingPlace
from pertxogai.output.picture.drawings import BAR, DrawnPlaces, degrees_told, mm
from pertxogai.output.picture.marks import LengthBar, PointMm
from pertxogai.output.picture.plane import between, crossing, sweep

_SIGNS: Mapping[type, str] = {
    Horizontal: "―", Vertical: "|", Parallel: "∥", Perpendicular: "⊥", Collinear: "⋯", Equal: "=",
    Tangent: "◠", Concentric: "◎", Symmetric: "⇔", Midpoint: "△", Fixed: "▣", Coincident: "●",
    PointOn: "×"}


def sign_of(constraint: Constraint) -> str:
    """The sign that stands for a constraint; none of one that has a value."""
    return _SIGNS.get(type(constraint), "")


def marks(where: DrawnPlaces, number: int, constraint: Constraint) -> Iterator[Mark]:
    """The marks of the constraint at a place, from 1; none where a place isn't known that it
    speaks of."""
    with suppress(MissingPlace):
        for mark in _marks(where, constraint):
            yield cast(Mark, {**mark, "number": number})


def reference_marks(where: DrawnPlaces, number: int, reference: Reference) -> Iterator[Mark]:
    """The mark of a dimension that is only measured, at a place among those, from 1: its value in
    brackets, as it is shown."""
    with suppress(MissingPlace):
        value = value_shown(where, reference.constraint, 2) or ""
        for mark in _marks(where, reference.constraint):
            sign = mark.get("text", "")[:1].strip("0123456789.-")
            text = f"({sign}{value.replace('deg', '°')})"
            yield cast(Mark, {**mark, "text": text, "number": -number,
                              "words": list(reference.words), "value": value})


def with_labels(shown: Iterable[Mark], placed: Mapping[int, Offset]) -> Iterator[Mark]:
    """Marks with where their labels stand, where that is said of the dimension of a number."""
    for mark in shown:
        label = placed.get(mark["number"])
        if label is None or "sign" in mark:
            yield mark
        else:
            place = (float(label[0]) / 1000, float(label[1]) / 1000)
            yield cast(Mark, {**mark, "label": place})


def _marks(where: DrawnPlaces, constraint: Constraint) -> Iterator[MarkAlone]:
    match constraint:
        case Radius(rim) | Diameter(rim):
            sign = "R" if isinstance(constraint, Radius) else "Ø"
            yield _leader(where, rim, f"{sign}{mm(constraint.value_um)}")
            return
        case AngleBetween():
            yield _angle(where, constraint)
            return
    shown = list(where.dimensions(constraint, BAR))
    for each in shown:
        if isinstance(each, LengthBar):
            yield {"bar": (each.start, each.end), "text": each.text}
    if not shown:
        yield from (place.sign(sign_of(constraint)) for place in _places(where, constraint))


def _leader(where: DrawnPlaces, rim: ShapeRef, text: str) -> MarkAlone:
    """A text with a leader to a rim: to any place of a circle, to the middle of an arc."""
    is_arc = isinstance(where.drawing.shape(rim.name), Arc)
    beside = _place(where, rim)
    assert beside is not None
    centre = where.at(PointRef(rim.name, Which.CENTRE))
    return {"at": beside.at, "centre": centre, "whole": not is_arc, "text": text}


def _angle(where: DrawnPlaces, angle: AngleBetween) -> MarkAlone:
    """An angle at the corner of its lines, of which it shows the sides that make it; against an
    axis, where the second line begins."""
    value = angle.value
    degrees = abs(float(value.value) if isinstance(value, Degrees)
                  else math.degrees(math.atan2(value.p, value.q)))
    one, two = where.ends(angle.first.name), where.ends(angle.second.name)
    is_axis = isinstance(where.drawing.shape(angle.first.name), Axis)
    corner = two[0] if is_axis else crossing(one, two)
    text = degrees_told(value)
    if corner is None:
        return {"at": between(*two, 0.5), "text": text}
    ways = [_turn(corner, one, is_axis), _turn(corner, two)]
    first, sweep = min((_swept(ways[0] + a * math.pi, ways[1] + b * math.pi)
                        for a, b in ((0, 0), (0, 1), (1, 0), (1, 1))),
                       key=lambda each: round(abs(math.degrees(each[1]) - degrees % 360), 1))
    return {"at": corner, "turn": (first, sweep), "text": text}


def _turn(corner: PointMm, line: tuple[PointMm, PointMm], is_axis: bool = False) -> float:
    """The direction from a corner along a line, to where the middle of what is drawn of it lies;
    of an axis its own."""
    x, y = (line[1][0] - line[0][0], line[1][1] - line[0][1]) if is_axis else (
        each - at for each, at in zip(between(*line, 0.5), corner))
    return math.atan2(y, x)


def _swept(one: float, other: float) -> tuple[float, float]:
    """Where the lesser turn between two directions begins, and how far it goes."""
    turn = (other - one) % (2 * math.pi)
    return (one, turn) if turn <= math.pi else (other, 2 * math.pi - turn)


@dataclass(frozen=True)
class _Beside:
    """A place at a thing, and the turn, in radians, of the edge that runs through it; None at a
    point."""

    at: PointMm
    turn: float | None = None

    def sign(self, sign: str) -> MarkAlone:
        """A sign there, as the page is told it: at an edge with the direction which it is to stand
        beside."""
        if self.turn is None:
            return {"sign": sign, "at": self.at}
        way = math.cos(self.turn), math.sin(self.turn)
        return {"sign": sign, "at": self.at, "way": way}


def _places(where: DrawnPlaces, constraint: Constraint) -> Iterator[_Beside]:
    """A place at each thing, each once."""
    seen: list[_Beside] = []
    for ref in refs_of(constraint):
        place = _place(where, ref)
        if place is not None and place.at not in [each.at for each in seen]:
            seen.append(place)
    if isinstance(getattr(constraint, "of", None), Pair) or getattr(constraint, "at", None):
        seen = seen[:1]
    yield from seen


def _place(where: DrawnPlaces, ref: PointRef | ShapeRef) -> _Beside | None:
    if isinstance(ref, PointRef):
        return _Beside(where.at(ref))
    shape = where.drawing.shape(ref.name)
    if isinstance(shape, Axis):
        return None
    if isinstance(shape, Circle):
        return _on_rim(where, ref, math.pi / 4)
    if isinstance(shape, Arc):
        first, turn = sweep(where.at(PointRef(ref.name, Which.CENTRE)), *where.ends(ref.name))
        return _on_rim(where, ref, first + turn / 2)
    (x, y), (u, v) = where.ends(ref.name)
    return _Beside(between((x, y), (u, v), 0.5), math.atan2(v - y, u - x))


def _on_rim(where: DrawnPlaces, ref: ShapeRef, turn: float) -> _Beside:
    """The place of a rim so far round, in radians."""
    (x, y), radius = where.at(PointRef(ref.name, Which.CENTRE)), where.radius(ref.name)
    at = x + radius * math.cos(turn), y + radius * math.sin(turn)
    return _Beside(at, turn - math.pi / 2)
