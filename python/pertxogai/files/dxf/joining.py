"""Which ends of an outline meet, and what is offered where they do.

All is looked at within one tolerance, a length: ends that meet are so near; a segment is level
where its one end is so near to the level through its other, and square to another where its end
is so near to the square line; two curves are tangent at a common end where the centre is so near
to the normal there.
"""

from __future__ import annotations

from collections.abc import Iterator
from dataclasses import dataclass, replace
from fractions import Fraction
from itertools import combinations

from pertxogai.classes import Classes
from pertxogai.drawing import (
    X_AXIS, Arc, Coincident, Constraint, Horizontal, Pair, Perpendicular, Place, PointRef, Segment,
    Shape, ShapeRef, Tangent, Vertical, Which)
from pertxogai.drawing.senses import Vector
from pertxogai.exact import Number, cross, dot
from pertxogai.files.contents import FileSketch

MOST_PAIRED = 30
"""The most ends at one place of which each pair is looked at."""


@dataclass(frozen=True)
class Outline:
    """An outline: its shapes, with the joints of the ends that meet, and further constraints that
    are offered. Neither has a dimension. A tangency that is offered at two ends includes their
    joint."""

    sketch: FileSketch
    offered: tuple[Constraint, ...]

    def accepted(self) -> FileSketch:
        """The sketch with everything that is offered."""
        said = {offer.at for offer in self.offered if isinstance(offer, Tangent)}
        kept = tuple(joint for joint in self.sketch.drawing.constraints
                     if not isinstance(joint, Coincident)
                     or Pair(joint.first, joint.second) not in said)
        constraints = kept + self.offered
        drawing = replace(self.sketch.drawing, constraints=constraints)
        return replace(self.sketch, drawing=drawing,
                       numbers=tuple(range(1, len(constraints) + 1)))


@dataclass(frozen=True)
class End:
    """An end of a segment or an arc: its point, its place, and its curve's direction there, or
    the opposite one."""

    ref: PointRef
    place: Place
    way: Vector
    is_rim: bool


def ends_of(shape: Shape) -> tuple[End, ...]:
    """The ends of a shape that has some."""
    match shape:
        case Segment(name, Place() as start, Place() as end):
            along = start.way_to(end)
            return (End(PointRef(name, Which.START), start, along, False),
                    End(PointRef(name, Which.END), end, along, False))
        case Arc(name, Place() as centre, Place() as start, Place() as end):
            return tuple(End(PointRef(name, which), place, _across(centre.way_to(place)), True)
                         for which, place in ((Which.START, start), (Which.END, end)))
    return ()


def meeting(ends: list[End], tolerance_um: Fraction) -> list[list[End]]:
    """The ends that lie within the tolerance of a first one, in groups of two or more."""
    cells: dict[tuple[int, int], list[list[End]]] = {}
    groups: list[list[End]] = []
    for end in ends:
        x, y = int(end.place.x_um // tolerance_um), int(end.place.y_um // tolerance_um)
        near = (group for i in (x - 1, x, x + 1) for j in (y - 1, y, y + 1)
                for group in cells.get((i, j), ()))
        found = next((group for group in near if _meets(group[0], end, tolerance_um)), None)
        if found is not None:
            found.append(end)
            continue
        groups.append([end])
        cells.setdefault((x, y), []).append(groups[-1])
    return [group for group in groups if len(group) > 1]


def joints(group: list[End], tolerance_um: Fraction) -> Iterator[Coincident | Tangent]:
    """What joins the ends of a group: as many joints as make them one, tangent ones first."""
    pairs = _pairs(group)
    tangent = [pair for pair in pairs if is_tangent(*pair, tolerance_um)]
    classes: Classes[str] = Classes()
    for first, second in tangent:
        if classes.join(str(first.ref), str(second.ref)):
            yield Tangent(ShapeRef(first.ref.shape), ShapeRef(second.ref.shape),
                          Pair(first.ref, second.ref))
    for first, second in pairs:
        if classes.join(str(first.ref), str(second.ref)):
            yield Coincident(first.ref, second.ref)


def is_tangent(first: End, second: End, tolerance_um: Fraction) -> bool:
    """Whether two curves, one a rim at least, touch at these ends."""
    if not (first.is_rim or second.is_rim) or first.ref.shape == second.ref.shape:
        return False
    return _within(cross(first.way, second.way), first.way, second.way, tolerance_um)


def level(shapes: tuple[Shape, ...], tolerance_um: Fraction) -> Iterator[Horizontal | Vertical]:
    """The segments that are horizontal or vertical."""
    for shape in shapes:
        match shape:
            case Segment(name, Place() as start, Place() as end):
                x, y = start.way_to(end)
                if abs(y) <= tolerance_um < abs(x):
                    yield Horizontal(ShapeRef(name))
                elif abs(x) <= tolerance_um < abs(y):
                    yield Vertical(ShapeRef(name))


def square(groups: list[list[End]], levelled: list[str], tolerance_um: Fraction
           ) -> Iterator[Perpendicular]:
    """The segments that are square to each other at a corner, where that doesn't follow already
    from segments that are level or square."""
    classes: Classes[str] = Classes()
    for name in levelled:
        classes.join(X_AXIS.name, name)
    for group in groups:
        for first, second in _pairs([end for end in group if not end.is_rim]):
            names, product = (first.ref.shape, second.ref.shape), dot(first.way, second.way)
            if (_within(product, first.way, second.way, tolerance_um)
                    and classes.join(*names)):
                yield Perpendicular(ShapeRef(names[0]), ShapeRef(names[1]))


def _pairs(group: list[End]) -> list[tuple[End, End]]:
    """The pairs of ends in a group; where they are many, those of the first end alone."""
    if len(group) > MOST_PAIRED:
        return [(group[0], end) for end in group[1:]]
    return list(combinations(group, 2))


def _meets(first: End, second: End, tolerance_um: Fraction) -> bool:
    """Whether two ends lie within the tolerance of each other."""
    x, y = first.place.way_to(second.place)
    return x * x + y * y <= tolerance_um ** 2


def _within(product: Number, first: Vector, second: Vector, tolerance_um: Fraction) -> bool:
    """Whether the part of the shorter way that a product of both tells is within the tolerance."""
    longer = max(x * x + y * y for x, y in (first, second))
    return product * product <= tolerance_um ** 2 * longer


def _across(way: Vector) -> Vector:
    return -way[1], way[0]
