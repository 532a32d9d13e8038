"""A DXF drawing as an outline."""

from __future__ import annotations

from collections.abc import Iterable
from fractions import Fraction
from pathlib import Path

from pertxogai.drawing import Coincident, Constraint, Shape, ShapeRef, Tangent
from pertxogai.files.builder import DrawingBuilder
from pertxogai.files.contents import FileRefusal
from pertxogai.files.dxf.entities import read_entities
from pertxogai.files.dxf.joining import End, Outline, ends_of, joints, level, meeting, square

TOLERANCE_UM = Fraction(10)
"""The distance within which ends meet, unless another tolerance is asked for: 0.01 mm."""


def read_outline(path: Path, tolerance_um: Fraction = TOLERANCE_UM) -> Outline:
    """The outline of a DXF file's model space; ends nearer than the tolerance, in micrometres and
    above 0, are joined. Raises FileRefusal if the file can't be read, isn't a DXF file, or has
    nothing to draw."""
    gathering = DrawingBuilder()
    shapes: list[Shape] = []
    for entity in read_entities(path):
        if entity.shape is None:
            gathering.leave_out(entity.name, entity.why)
        elif gathering.add_shape(entity.shape):
            shapes.append(entity.shape)
    if not shapes:
        raise FileRefusal(f"{path}: nothing to draw in it: its model space has no LINE, ARC, "
                          "CIRCLE, LWPOLYLINE or POINT")
    groups = meeting([end for shape in shapes for end in ends_of(shape)], tolerance_um)
    made = [joint for group in groups for joint in joints(group, tolerance_um)]
    for count, joint in enumerate(made, 1):
        gathering.add_constraints([_plain(joint)], f"joint {count}", count)
    return Outline(gathering.found(path.stem, path.stem),
                   tuple(_offers(tuple(shapes), groups, made, tolerance_um)))


def _plain(joint: Coincident | Tangent) -> Coincident:
    """The joint of two ends by itself."""
    if isinstance(joint, Coincident):
        return joint
    assert joint.at is not None
    return Coincident(joint.at.first, joint.at.second)


def _offers(shapes: tuple[Shape, ...], groups: list[list[End]],
            made: list[Coincident | Tangent], tolerance_um: Fraction) -> Iterable[Constraint]:
    """What is offered: level segments, corners that are square besides, and tangencies."""
    levelled = list(level(shapes, tolerance_um))
    names = [each.of.name for each in levelled if isinstance(each.of, ShapeRef)]
    yield from levelled
    yield from square(groups, names, tolerance_um)
    yield from (joint for joint in made if isinstance(joint, Tangent))
