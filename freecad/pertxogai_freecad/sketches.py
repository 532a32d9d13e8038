"""A sketch of an open document, and what the package reads of it."""
from __future__ import annotations

import re
from collections.abc import Mapping
from contextlib import suppress
from dataclasses import dataclass
from functools import cached_property
from pathlib import Path
from tempfile import TemporaryDirectory
from zipfile import is_zipfile

from pertxogai.drawing import Drawing, Shape
from pertxogai.files.contents import FileSketch
from pertxogai.files.freecad import read_freecad
from pertxogai.files.freecad.reading import SKETCHES
from pertxogai.files.freecad.shapes import number_of
from pertxogai_freecad.freecad_types import OwnDocument, OwnSketch
from pertxogai_freecad.translating import QT_TRANSLATE_NOOP
from pertxogai_freecad.trouble import Trouble, troubles

CHANGED = QT_TRANSLATE_NOOP("Pertxogai", "the sketch was changed since: judge it again")
GONE = "the sketch was deleted: select another, and judge that"
SHOWN_ONLY = re.compile(r' (?:LabelDistance|LabelPosition|IsInVirtualSpace)="[^"]*"')
"""What of a constraint says where its text stands, and whether that is shown."""


@dataclass(frozen=True)
class ReadSketch:
    """A sketch, and what is read of it. stored: what was stored of it when it was read."""

    sketch: OwnSketch
    found: FileSketch
    stored: tuple[tuple[str, ...], tuple[str, ...]]

    @property
    def drawing(self) -> Drawing:
        """What is drawn."""
        return self.found.drawing

    @property
    def label(self) -> str:
        """What its designer calls it."""
        return self.found.label

    def index(self, number: int) -> int:
        """FreeCAD's number of a constraint, from 0, by that of the drawing, from 1."""
        return self.found.numbers[number - 1] - 1

    @cached_property
    def indices(self) -> Mapping[str, int]:
        """FreeCAD's number of each constraint by its name in the drawing."""
        named = enumerate(self.drawing.constraints, 1)
        return {self.drawing.called(number): self.index(number) for number, _ in named}

    def numbers(self, index: int) -> tuple[int, ...]:
        """What a constraint of FreeCAD's says in the drawing, by places from 1."""
        return self._numbers.get(index, ())

    @cached_property
    def _numbers(self) -> Mapping[int, tuple[int, ...]]:
        found: dict[int, tuple[int, ...]] = {}
        for number, of in enumerate(self.found.numbers, 1):
            found[of - 1] = (*found.get(of - 1, ()), number)
        return found

    def curves(self) -> Mapping[int, Shape]:
        """The drawing's shapes by FreeCAD's numbers from 0, but for outer geometry."""
        return {number_of(each.name): each for each in self.drawing.geometry if not each.outer}

    def check_constraints(self) -> None:
        """Raises Trouble where the sketch has other constraints than were read."""
        if stored_of(self.sketch)[0] != self.stored[0]:
            raise Trouble(CHANGED)

    def check_unchanged(self) -> None:
        """Raises Trouble where the sketch has other constraints or shapes than were read, or what
        it has of other objects lies elsewhere."""
        if stored_of(self.sketch) != self.stored or read_sketch(self.sketch).found != self.found:
            raise Trouble(CHANGED)


def stored_of(sketch: OwnSketch) -> tuple[tuple[str, ...], tuple[str, ...]]:
    """A sketch's constraints and shapes as FreeCAD stores them, without how constraints are shown;
    of outer shapes which they are. Raises Trouble where the sketch is gone."""
    try:
        outer = (f"{of.Name} {' '.join(parts)}" for of, parts in sketch.ExternalGeometry)
        return (tuple(SHOWN_ONLY.sub("", each.Content) for each in sketch.Constraints),
                (*(each.Content for each in sketch.Geometry), *outer))
    except ReferenceError:
        raise Trouble(GONE) from None


def read_sketch(sketch: OwnSketch) -> ReadSketch:
    """What the package reads of a sketch, from a copy of its document. Raises Trouble."""
    return next(each for each in read_sketches(sketch.Document)
                if each.sketch.Name == sketch.Name)


def read_sketches(document: OwnDocument) -> tuple[ReadSketch, ...]:
    """Every sketch of a document, in its order. Raises Trouble where it has none."""
    sketches = {each.Name: each for each in document.Objects if each.TypeId in SKETCHES}
    if not sketches:
        raise Trouble(f"{document.Label} has no sketch: draw one in the Sketcher")
    with troubles(), TemporaryDirectory(prefix="pertxogai-") as room:
        copy = Path(room, "copy.FCStd")
        write_copy(document, copy)
        found = read_freecad(copy)
    return tuple(ReadSketch(sketches[each.name], each, stored_of(sketches[each.name]))
                 for each in found)


def write_copy(document: OwnDocument, path: Path) -> None:
    """Writes a copy of a document. Raises Trouble where FreeCAD couldn't write it, also where it
    doesn't say so, and leaves no part of one."""
    with suppress(Exception):  # FreeCAD raises errors of its own, or none.
        document.saveCopy(str(path))
    if not is_zipfile(path):
        path.unlink(missing_ok=True)
        raise Trouble(f"FreeCAD couldn't write {path}: look at its folder, and whether the disk is "
                      "full")
