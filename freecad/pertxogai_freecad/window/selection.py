"""The sketch that is edited or selected, and its selected constraints."""
from __future__ import annotations

import re
from collections.abc import Iterable

import FreeCADGui

from pertxogai_freecad.freecad_types import OwnSketch
from pertxogai_freecad.trouble import Trouble

SKETCHES = frozenset({"Sketcher::SketchObject", "Sketcher::SketchObjectPython"})
CONSTRAINT = re.compile(r"Constraint(\d+)")


def edited_sketch() -> OwnSketch | None:
    """The sketch that is edited."""
    document = FreeCADGui.ActiveDocument
    edited = document.getInEdit() if document else None
    found: OwnSketch | None = edited.Object if edited else None
    return found if found is not None and found.TypeId in SKETCHES else None


def chosen_sketch() -> OwnSketch | None:
    """The sketch that is edited, else the first that is selected, else the document's only one."""
    edited = edited_sketch()
    if edited is not None:
        return edited
    selected = [each for each in FreeCADGui.Selection.getSelection() if each.TypeId in SKETCHES]
    document = FreeCADGui.ActiveDocument
    if not selected and document is not None:
        all_of_it = [each for each in document.Document.Objects if each.TypeId in SKETCHES]
        selected = all_of_it if len(all_of_it) == 1 else []
    return selected[0] if selected else None


def the_sketch(last: OwnSketch | None) -> OwnSketch:
    """The sketch that is meant: where none is chosen, the last one that was asked about, if its
    document is in front. Raises Trouble where none is."""
    found = chosen_sketch()
    if found is None and last is not None and is_in_front(last):
        return last
    if found is None:
        raise Trouble("no sketch is selected: click on one in the tree, and ask again")
    return found


def is_in_front(sketch: OwnSketch) -> bool:
    """Whether a sketch is there still, in the active document."""
    try:
        return FreeCADGui.ActiveDocument is not None and bool(
            FreeCADGui.ActiveDocument.Document.Name == sketch.Document.Name)
    except ReferenceError:
        return False


def selected_constraints(sketch: OwnSketch) -> frozenset[int]:
    """The constraints that are selected, by FreeCAD's numbers from 0."""
    names = [name for each in FreeCADGui.Selection.getSelectionEx(sketch.Document.Name)
             if each.ObjectName == sketch.Name for name in each.SubElementNames]
    found = (CONSTRAINT.fullmatch(name) for name in names)
    return frozenset(int(each[1]) - 1 for each in found if each is not None)


def select_constraints(sketch: OwnSketch, indices: Iterable[int]) -> None:
    """Selects constraints: in the sketch while it is edited; else they are only marked as
    selected, since FreeCAD shows constraints nowhere else."""
    deselect()
    for index in indices:
        FreeCADGui.Selection.addSelection(sketch.Document.Name, sketch.Name,
                                          f"Constraint{index + 1}")


def deselect() -> None:
    """Selects nothing."""
    FreeCADGui.Selection.clearSelection()


def edit(sketch: OwnSketch) -> None:
    """Opens a sketch in the Sketcher, and shows all of it where nothing of it was seen before, as
    of one that FreeCAD's solver doesn't solve. While one is edited, that stays so."""
    if edited_sketch() is not None:
        return
    was_seen = bool(sketch.Shape.Edges)
    FreeCADGui.getDocument(sketch.Document.Name).setEdit(sketch.Name)
    if not was_seen:
        FreeCADGui.SendMsgToActiveView("ViewFit")
