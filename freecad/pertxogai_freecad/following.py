"""What follows from a constraint by FreeCAD's expressions, and what constraints follow from."""
from __future__ import annotations

import html
import re
from collections.abc import Iterator, Mapping
from typing import Any

import FreeCAD

from pertxogai_freecad.freecad_types import OwnSketch

USED = re.compile(r"(?:(?<![\w.>])\.?|(?:(\w+|<<[^<>]*>>)#)?(\w+|<<[^<>]*>>)\.)"
                  r"Constraints(?:\.(\w+)|\[(\d+)\])")
"""A constraint in an expression: the document and the object that it is of, where it is another's,
and its name or FreeCAD's number, from 0."""
ITSELF = "_self"
"""What an expression calls the object that has it."""
PLACE = re.compile(r"\.?Constraints(?:\.(\w+)|\[(\d+)\])")
"""What has an expression, where it is a constraint of the sketch."""
CELL = re.compile(r'<Cell address="(\w+)" content="(=[^"]*)"')
SHEET = "Spreadsheet::Sheet"


def followers(sketch: OwnSketch, index: int) -> tuple[str, ...]:
    """What of the open documents follows from a constraint, by FreeCAD's number from 0: constraints
    of the sketch by their names, and properties and cells of other objects."""
    open_ones = FreeCAD.listDocuments().values()
    documents = sorted(open_ones, key=lambda each: bool(each.Name != sketch.Document.Name))
    return tuple(called for document in documents for each in document.Objects
                 for called, text in _expressions(sketch, each)
                 if any(_means(found, sketch, index, each) for found in USED.finditer(text)))


def set_by(sketch: OwnSketch) -> Mapping[int, str]:
    """The expressions that set a sketch's constraints, by FreeCAD's numbers from 0."""
    found = {}
    names = {each.Name: index for index, each in enumerate(sketch.Constraints) if each.Name}
    for path, text in sketch.ExpressionEngine:
        place = PLACE.fullmatch(path)
        if place is not None:
            found[int(place[2]) if place[2] else names[place[1]]] = text
    return found


def _means(found: re.Match[str], sketch: OwnSketch, index: int, of: Any) -> bool:
    """Whether a constraint in an expression of an object is that of the sketch."""
    document, owner, name, number = found.groups()
    if document is None:
        is_there = _is_in_its_document(sketch, of)
    else:
        is_there = document in (sketch.Document.Name, f"<<{sketch.Document.Label}>>")
    is_its = (_is(sketch, of) if owner in (None, ITSELF) else
              owner in (sketch.Name, f"<<{sketch.Label}>>"))
    if not (is_there and is_its):
        return False
    return int(number) == index if number else name == sketch.Constraints[index].Name


def _is(sketch: OwnSketch, of: Any) -> bool:
    """Whether an object is the sketch."""
    return _is_in_its_document(sketch, of) and bool(of.Name == sketch.Name)


def _is_in_its_document(sketch: OwnSketch, of: Any) -> bool:
    """Whether an object is of the sketch's document."""
    return bool(of.Document.Name == sketch.Document.Name)


def _expressions(sketch: OwnSketch, of: Any) -> Iterator[tuple[str, str]]:
    """The expressions of an object, each with what has it."""
    label = of.Label if _is_in_its_document(sketch, of) else f"{of.Document.Label}#{of.Label}"
    for path, text in of.ExpressionEngine:
        own = PLACE.fullmatch(path)
        if not _is(sketch, of) or own is None:
            yield f"{label}.{path.removeprefix('.')}", text
        else:
            yield own[1] or f"Constraint{int(own[2]) + 1}", text
    if of.TypeId == SHEET:
        for cell, text in CELL.findall(of.Content):
            yield f"{label}.{cell}", html.unescape(text)
