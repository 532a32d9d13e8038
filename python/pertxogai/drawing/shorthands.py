"""Polylines and rectangles: several segments by one word."""

from __future__ import annotations

from collections.abc import Iterator
from dataclasses import dataclass

from pertxogai.drawing.constraints import Constraint, Horizontal, Vertical
from pertxogai.drawing.geometry import Anchor, Segment, Shape
from pertxogai.drawing.named_shapes import NamedShapes
from pertxogai.drawing.places import Place
from pertxogai.drawing.references import PointRef, ShapeRef, Which
from pertxogai.drawing.refusal import WordFault


@dataclass(frozen=True)
class Expansion:
    """The shapes and constraints that one line of a text, or one call here, makes."""

    shapes: tuple[Shape, ...] = ()
    constraints: tuple[Constraint, ...] = ()


def polyline(name: str, corners: tuple[Anchor, ...], closed: bool = False) -> Expansion:
    """Segments NAME1, NAME2, .. from corner to corner, each starting where the last ended; `closed`
    adds the one from the last corner back to the first. Raises WordFault for fewer than two
    corners, or than three if it is closed."""
    if len(corners) < (3 if closed else 2):
        raise WordFault(name, "has too few corners: write two at least, or three and `closed`")
    sides = len(corners) if closed else len(corners) - 1
    return Expansion(tuple(_chain([f"{name}{number + 1}" for number in range(sides)], corners)))


def rectangle(scene: NamedShapes, name: str, corner: Anchor, opposite: Anchor) -> Expansion:
    """Four segments NAMEBottom, NAMERight, NAMETop and NAMELeft, counter-clockwise through two
    opposite corners, with two horizontal and two vertical constraints. `scene` has the drawn
    positions of corners that are points. Raises WordFault if the corners are drawn at the same
    height."""
    bottom, right, top, left = (f"{name}{side}" for side in ("Bottom", "Right", "Top", "Left"))
    sides = tuple(_chain([bottom, right, top, left], _corners(scene, name, corner, opposite)))
    return Expansion(sides, (Horizontal(ShapeRef(bottom)), Vertical(ShapeRef(right)),
                        Horizontal(ShapeRef(top)), Vertical(ShapeRef(left))))


def _chain(names: list[str], corners: tuple[Anchor, ...]) -> Iterator[Segment]:
    """Segments of these names from corner to corner; where there are as many as corners, the
    last one goes back to the first corner."""
    start = corners[0]
    for place, name in enumerate(names, start=1):
        end = corners[place] if place < len(corners) else _point(corners[0], names[0], Which.START)
        yield Segment(name, start, end)
        start = _point(end, name, Which.END)


def _point(spot: Anchor, name: str, which: Which) -> PointRef:
    """The point that a spot is, or that it became as a point of the segment called `name`."""
    return spot if isinstance(spot, PointRef) else PointRef(name, which)


def _corners(scene: NamedShapes, name: str, corner: Anchor, opposite: Anchor) -> tuple[Anchor, ...]:
    """The four corners of a rectangle from the lower left one, counter-clockwise."""
    first, second = (_place(scene, each) for each in (corner, opposite))
    left, right = sorted((first.x_um, second.x_um))
    low, high = sorted((first.y_um, second.y_um))
    if left == right or low == high:
        raise WordFault(name, "has its two corners on one level: draw them as opposite corners")
    west, east = (corner, opposite) if first.x_um == left else (opposite, corner)
    if (first.x_um < second.x_um) == (first.y_um < second.y_um):
        return west, Place(right, low), east, Place(left, high)
    return Place(left, low), east, Place(right, high), west


def _place(scene: NamedShapes, spot: Anchor) -> Place:
    return scene.drawn(spot) if isinstance(spot, PointRef) else spot
