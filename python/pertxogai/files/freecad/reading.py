"""The sketches of a FreeCAD file, as drawings."""

from __future__ import annotations

from collections.abc import Iterator
from dataclasses import replace
from pathlib import Path

from pertxogai.drawing import Constraint
from pertxogai.files.builder import DrawingBuilder
from pertxogai.files.contents import (
    FileRefusal, FileSketch, NotDriving, NotDrivingCause, NotSayable)
from pertxogai.files.freecad.archive import DOCUMENT, open_archive, read_member, read_pieces
from pertxogai.files.freecad.constraints import Shapes, name_of, part_of_a_curve, read_entry, say
from pertxogai.files.freecad.expressions import Bound
from pertxogai.files.freecad.lying import Lying
from pertxogai.files.freecad.markup import BadMarkup, Kept, Node, read_markup
from pertxogai.files.freecad.outer import Shelf, outer_shapes
from pertxogai.files.freecad.shapes import Numbered, read_outer, read_shapes
from pertxogai.files.limits import SKETCH_ENTRIES

SKETCHES = frozenset({"Sketcher::SketchObject", "Sketcher::SketchObjectPython"})
"""FreeCAD's words for the kinds of object that a sketch is: drawn, or made by a script."""


def read_freecad(path: Path) -> tuple[FileSketch, ...]:
    """Every sketch of a `.FCStd` file, in the file's order, with what was left out. Raises
    FileRefusal if the file can't be read, isn't a FreeCAD file, or has no sketch."""
    with open_archive(path) as archive:
        objects = objects_of(path, read_member(path, archive, DOCUMENT))
        _check_size(path, objects)
        shelf = Shelf({kept.name: kept for kept in objects},
                      lambda member: read_pieces(path, archive, member))
        found = tuple(_sketch(kept, shelf) for kept in objects if kept.kind in SKETCHES)
    if not found:
        raise FileRefusal(f"{path}: no sketch in it: draw one by FreeCAD's Sketcher, and save")
    return found


def _check_size(path: Path, objects: list[Kept]) -> None:
    """Refuses a file with a sketch of more than `SKETCH_ENTRIES`."""
    for kept in objects:
        for word in ("Geometry", "Constraints", "ExternalGeometry", "ExternalGeo",
                     "ExpressionEngine"):
            if len(kept.list_of(word)) > SKETCH_ENTRIES:
                raise FileRefusal(f"{path}: {label_of(kept)} has more than {SKETCH_ENTRIES} entries"
                                  f" in its list {word}: take a part of it")


def objects_of(path: Path, data: bytes) -> list[Kept]:
    """The objects of a document's XML; raises FileRefusal where it isn't sound."""
    try:
        return read_markup(data)
    except BadMarkup as bad:
        raise FileRefusal(f"{path}: its {DOCUMENT} can't be read: {bad}") from None


def _sketch(kept: Kept, shelf: Shelf) -> FileSketch:
    """One sketch."""
    bound = Bound.of(kept, label_of(kept))
    gathering = DrawingBuilder(bound.values)
    nodes, drawn = kept.list_of("Constraints"), _shapes(kept, shelf, gathering)
    shapes = Shapes(drawn, Lying(_put(nodes, Shapes(drawn))))
    aside = []
    for count, node in enumerate(nodes, 1):
        why, name = _apart(node), name_of(node, count)
        if why is not None:
            aside.append(NotDriving(count, name, why, _said_alone(node, count, shapes)))
            continue
        try:
            said = [bound.attached(count, each) for each in say(read_entry(node, count), shapes)]
            gathering.add_constraints(said, name, count)
        except NotSayable as unsaid:
            gathering.leave_out(name, str(unsaid), count)
    return gathering.found(kept.name, label_of(kept), aside)


def _shapes(kept: Kept, shelf: Shelf, gathering: DrawingBuilder) -> list[Numbered]:
    """The shapes of a sketch, outer ones last; those that can't be drawn have none."""
    shapes, left_out = read_shapes(kept.list_of("Geometry"))
    stored = kept.list_of("ExternalGeo")
    outer, outer_left_out = read_outer(stored) if stored else outer_shapes(kept, shelf)
    for one in left_out + outer_left_out:
        gathering.leave_out(one.what, one.why)
    parts = {part_of_a_curve(node) for node in kept.list_of("Constraints")}
    return [_add(one, one.number in parts, gathering) for one in shapes + outer]


def _add(one: Numbered, is_part: bool, gathering: DrawingBuilder) -> Numbered:
    """A shape once it was added; without its shape where it is a part of a curve that is left
    out, or unsound."""
    if one.shape is not None and is_part:
        gathering.leave_out(one.name, "it belongs to a curve that is left out")
    elif one.shape is not None and gathering.add_shape(one.shape):
        return one
    return replace(one, shape=None)


def _put(nodes: list[Node], shapes: Shapes) -> Iterator[Constraint]:
    """What the entries that drive the sketch say without knowing of each other."""
    for count, node in enumerate(nodes, 1):
        if _apart(node) is None:
            yield from _said_alone(node, count, shapes)


def _said_alone(node: Node, count: int, shapes: Shapes) -> tuple[Constraint, ...]:
    """What an entry asks for; nothing where it can't be said."""
    try:
        return tuple(say(read_entry(node, count), shapes))
    except NotSayable:
        return ()


def label_of(kept: Kept) -> str:
    """What its designer calls a sketch."""
    held = kept.properties.get("Label")
    text = held.child("String") if held is not None else None
    return (text.get("value", "") if text is not None else "") or kept.name


def _apart(node: Node) -> NotDrivingCause | None:
    """Why an entry doesn't drive its sketch; nothing where it does."""
    if node.get("IsActive", "1") == "0":
        return NotDrivingCause.OFF
    if node.get("IsDriving", "1") == "0":
        return NotDrivingCause.REFERENCE
    return None
