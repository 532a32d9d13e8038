"""Where a hand points on the board: a place of its own, or a point that stands."""
from __future__ import annotations

from dataclasses import replace

from pertxogai.board.fields import Fields
from pertxogai.drawing import Anchor, Drawing, NamedShapes, Place, PointRef, Shape, Which
from pertxogai.drawing.cursor import Cursor

FIELD_OF = {Which.AT: "at", Which.START: "start", Which.END: "end", Which.CENTRE: "centre"}
"""The field of a shape that has its point."""


def spot_of(scene: NamedShapes, given: Fields) -> Anchor:
    """A place `{x, y}` in millimetres, or a point `{point}` by its name. Raises FieldRefused,
    and WordFault where no such point stands."""
    if given.has("point"):
        return point_of(scene, given.text("point"))
    return Place(given.um("x"), given.um("y"))


def point_of(scene: NamedShapes, name: str) -> PointRef:
    """The point of a name, as `A` or `Bottom.start`. Raises WordFault."""
    return Cursor(scene, ["", name]).point()


def leader_of(drawing: Drawing, ref: PointRef) -> PointRef:
    """The point that has the place which this one shares, or itself."""
    while True:
        shape = drawing.shape(ref.shape)
        spot = getattr(shape, FIELD_OF[ref.which], None)
        if not isinstance(spot, PointRef):
            return ref
        ref = spot


def with_spot(shape: Shape, which: Which, spot: Anchor) -> Shape:
    """A shape with another spot for one of its points."""
    return replace(shape, **{FIELD_OF[which]: spot})
