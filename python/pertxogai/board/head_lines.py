"""The lines above the shapes, which are values, the class of tolerances and checks; each note stays
at its line, whatever comes or goes among them."""
from __future__ import annotations

from collections.abc import Sequence
from dataclasses import replace

from pertxogai.drawing import Drawing, Note, Value
from pertxogai.drawing.tolerances.check import Tolerancing

Line = tuple[str, str]
"""A line by its word and its name."""


def with_head(drawing: Drawing, values: tuple[Value, ...] | None = None,
              tolerancing: Tolerancing | None = None) -> Drawing:
    """A drawing with other values, or with other tolerances and checks. A note beside a line that
    goes, goes with it; one above such a line stands above what came next."""
    made = replace(drawing, values=drawing.values if values is None else values,
                   tolerancing=drawing.tolerancing if tolerancing is None else tolerancing)
    before, now = _lines(drawing), _lines(made)
    notes = (_moved(note, before, now) for note in drawing.notes)
    return replace(made, notes=tuple(note for note in notes if note is not None))


def _lines(drawing: Drawing) -> list[Line]:
    """The lines above the shapes, in the order in which they are written."""
    general, checks = drawing.tolerancing.general, drawing.tolerancing.checks
    return [*(("value", each.name) for each in drawing.values),
            *([] if general is None else [("tolerances", "")]),
            *(("check", each.name) for each in checks)]


def _moved(note: Note, before: Sequence[Line], now: Sequence[Line]) -> Note | None:
    """A note with its line among those that stand now; None where that is gone."""
    if note.before >= 0:
        return note
    mine = before[note.before:]
    if note.beside and mine[0] not in now:
        return None
    place = next((now.index(each) - len(now) for each in mine if each in now), 0)
    return replace(note, before=place)
