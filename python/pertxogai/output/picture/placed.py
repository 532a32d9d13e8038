"""Where the elements of a sketch lie for a picture: as drawn, as placed, or as placed and laid
on the drawing."""
from __future__ import annotations

import math
from collections.abc import Iterable, Sequence
from dataclasses import dataclass

from pertxogai.language import (
    Circle, Distance, Element, Line, On, Placed, PlacedCircle, PlacedLine, Sketch, Tangent)
from pertxogai.output.picture.fitting import Motion, direction, mean, products
from pertxogai.output.picture.marks import PointMm
from pertxogai.output.picture.plane import between, foot, unit

ALONE = 10.0


@dataclass(frozen=True)
class Laid:
    """An element for a picture, in millimetres: a place, the radius of a circle (0 of a point)."""

    name: str
    at: PointMm
    radius: float


@dataclass(frozen=True)
class LaidLine:
    """A line through a place in a direction of length 1."""

    name: str
    through: PointMm
    way: PointMm


LaidElement = Laid | LaidLine


def as_drawn(elements: Iterable[Element]) -> tuple[LaidElement, ...]:
    """Elements where they are drawn."""
    return tuple(map(_lay_drawn, elements))


def as_placed(places: Iterable[Placed]) -> tuple[LaidElement, ...]:
    """Elements where they are placed, in the frame of the places."""
    return tuple(map(_lay_placed, places))


def _lay_drawn(element: Element) -> LaidElement:
    if isinstance(element, Line):
        way = unit((element.x2_um - element.x1_um) / 1e3, (element.y2_um - element.y1_um) / 1e3)
        return LaidLine(element.name, (element.x1_um / 1e3, element.y1_um / 1e3), way)
    radius = element.radius_um / 1e3 if isinstance(element, Circle) else 0.0
    return Laid(element.name, (element.x_um / 1e3, element.y_um / 1e3), radius)


def _lay_placed(placed: Placed) -> LaidElement:
    if isinstance(placed, PlacedLine):
        a, b = unit(placed.a_ppb, placed.b_ppb)
        return LaidLine(placed.name, (a * placed.c_nm / 1e6, b * placed.c_nm / 1e6), (b, -a))
    radius = placed.radius_nm / 1e6 if isinstance(placed, PlacedCircle) else 0.0
    return Laid(placed.name, (placed.x_nm / 1e6, placed.y_nm / 1e6), radius)


def moved(elements: Iterable[LaidElement], motion: Motion) -> tuple[LaidElement, ...]:
    """The elements, moved."""
    return tuple(
        Laid(it.name, motion.of(it.at), it.radius)
        if isinstance(it, Laid)
        else LaidLine(it.name, motion.of(it.through), motion.turned(it.way))
        for it in elements
    )


def laid_on(
    elements: Sequence[LaidElement], drawing: Sequence[LaidElement]
) -> tuple[LaidElement, ...]:
    """The elements, moved so that they lie nearest to the same ones of a drawing: points and
    centres by least squares, lines by their directions and by how far off the drawn places they
    run."""
    drawn = {it.name: it for it in drawing}
    pairs = [(one, drawn[one.name]) for one in elements]
    points = [(a.at, b.at) for a, b in pairs if isinstance(a, Laid) and isinstance(b, Laid)]
    lines = [(a, b) for a, b in pairs if isinstance(a, LaidLine) and isinstance(b, LaidLine)]
    cos, sin = _turn(points, lines)
    turn = Motion(cos, sin)
    shift = _shift(
        [(turn.of(one), two) for one, two in points],
        [(turn.of(one.through), turn.turned(one.way), two.through) for one, two in lines],
    )
    return moved(elements, Motion(cos, sin, *shift))


def _turn(points: Sequence[tuple[PointMm, PointMm]],
          lines: Sequence[tuple[LaidLine, LaidLine]]) -> PointMm:
    """The turn (cosine and sine) that brings the first of each pair nearest to the second."""
    first, second = mean([one for one, _ in points]), mean([two for _, two in points])
    spread = sum(math.dist(two, second) ** 2 for _, two in points) / max(len(points), 1) or 1.0
    dot, cross = products(points, first, second)
    along, across = products([(one.way, two.way) for one, two in lines], (0.0, 0.0), (0.0, 0.0))
    return direction(dot + spread * along, cross + spread * across)


def _shift(points: Sequence[tuple[PointMm, PointMm]],
           lines: Sequence[tuple[PointMm, PointMm, PointMm]]) -> PointMm:
    """The shift that brings turned points nearest to drawn ones, and turned lines (a place, a
    way) to drawn places."""
    xx, xy, yy, x, y = 1e-9, 0.0, 1e-9, 0.0, 0.0
    for (fx, fy), (tx, ty) in points:
        xx, yy, x, y = xx + 1, yy + 1, x + tx - fx, y + ty - fy
    for (fx, fy), (wx, wy), (tx, ty) in lines:
        nx, ny = -wy, wx
        off = nx * (tx - fx) + ny * (ty - fy)
        xx, xy, yy = xx + nx * nx, xy + nx * ny, yy + ny * ny
        x, y = x + nx * off, y + ny * off
    det = xx * yy - xy * xy
    return (yy * x - xy * y) / det, (xx * y - xy * x) / det


def segments(sketch: Sketch, laid: Sequence[LaidElement]) -> dict[str, tuple[PointMm, PointMm]]:
    """The segment that stands for each line: over the nearest places to the points and centres
    that a `distance`, `on` or `tangent` ties to it, and 10 mm to either side where that is one
    place or none, as `dxf` draws it."""
    places = {it.name: it for it in laid}
    ties: dict[str, list[PointMm]] = {it.name: [] for it in laid if isinstance(it, LaidLine)}
    for constraint in sketch.constraints:
        if isinstance(constraint, (Distance, On, Tangent)):
            for one, two in (constraint.names(), constraint.names()[::-1]):
                end = places.get(two)
                if one in ties and isinstance(end, Laid):
                    ties[one].append(end.at)
    return {it.name: _segment(it, ties[it.name]) for it in laid if isinstance(it, LaidLine)}


def _segment(line: LaidLine, ties: Sequence[PointMm]) -> tuple[PointMm, PointMm]:
    (x, y), (wx, wy) = line.through, line.way
    along = [wx * (tx - x) + wy * (ty - y) for tx, ty in ties] or [0.0]
    first, last = min(along), max(along)
    if last - first < 1e-6:
        first, last = first - ALONE, last + ALONE
    return (x + wx * first, y + wy * first), (x + wx * last, y + wy * last)


def middle_of(segment: tuple[PointMm, PointMm]) -> PointMm:
    """The middle of a segment."""
    return between(*segment, 0.5)


def foot_on(place: PointMm, segment: tuple[PointMm, PointMm]) -> PointMm:
    """The nearest place on the line of a segment."""
    return foot(place, *segment)
