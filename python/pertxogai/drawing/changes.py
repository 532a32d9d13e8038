"""What an edit draws elsewhere, where it leaves the rest of a drawing as it was."""

from __future__ import annotations

from typing import NamedTuple

from pertxogai.cached import cached_on
from pertxogai.drawing.constraints import (
    Coincident, Concentric, Constraint, Perpendicular, PointOn, Tangent)
from pertxogai.drawing.drawing import Drawing
from pertxogai.drawing.geometry import Shape
from pertxogai.drawing.named_shapes import points_of, spot_of
from pertxogai.drawing.references import PointRef

JOINING = Coincident, Concentric, Perpendicular, PointOn, Tangent
"""Which points are one depends on these alone, and on the shapes."""


def moved(drawing: Drawing, before: Drawing) -> frozenset[str] | None:
    """The shapes whose drawn position differs from that in the drawing before, and those that share
    a point with one of them by words; None if the shapes differ, or if other points coincide."""
    if len(drawing.geometry) != len(before.geometry) or _joining(drawing) != _joining(before):
        return None
    found = set()
    for shape, old in zip(drawing.geometry, before.geometry):
        if shape is not old:
            if _structure(shape) != _structure(old):
                return None
            found.add(shape.name)
        elif any(spot is not None and spot.shape in found for spot in _shared_points(shape)):
            found.add(shape.name)
    found |= {led.shape for led, leader in before.meetings.led() if leader.shape in found}
    return frozenset(found)


class Redrawing(NamedTuple):
    """A drawing `new` in which the same points are one as in a drawing `old`, and the shapes that
    are drawn elsewhere in it, as `moved` tells them. The constraints may differ."""

    old: Drawing
    new: Drawing
    elsewhere: frozenset[str]

    @staticmethod
    def of(old: Drawing, new: Drawing) -> Redrawing | None:
        """From one drawing to another, which takes over which points are one; None where the shapes
        differ, or where other points are told to be one."""
        elsewhere = moved(new, old)
        return None if elsewhere is None else Redrawing(old, new.meeting_as(old), elsewhere)


@cached_on
def _joining(drawing: Drawing) -> tuple[Constraint, ...]:
    return tuple(each for each in drawing.constraints if isinstance(each, JOINING))


def _structure(shape: Shape) -> tuple[object, ...]:
    """What of a shape isn't where it is drawn."""
    return type(shape), shape.name, shape.outer, _shared_points(shape)


@cached_on
def _shared_points(shape: Shape) -> tuple[PointRef | None, ...]:
    """The points of others that a shape has for its own, each at its place."""
    spots = (spot_of(shape, each.which) for each in points_of(shape))
    return tuple(spot if isinstance(spot, PointRef) else None for spot in spots)
