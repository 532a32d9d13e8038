"""The text of a drawing, written."""

from __future__ import annotations

from pertxogai.drawing.drawing import Drawing, Note
from pertxogai.drawing.wording import line_of

HEADER = "drawing 1"
"""The first line, which says the version of the text."""


def write_drawing(drawing: Drawing) -> str:
    """The text of a sound drawing, which reads as the same drawing: all values, tolerances and
    checks, then all shapes, then all constraints, one in a line, with the notes in their places."""
    head = [*(each.line() for each in drawing.values), *drawing.tolerancing.lines()]
    said = list(head)
    said.extend(map(line_of, (*drawing.geometry, *drawing.constraints)))
    if not drawing.notes:
        return "\n".join([HEADER, *said, ""])
    above: dict[int, list[Note]] = {}
    for note in drawing.notes:
        place = min(note.before + len(head), len(said))
        above.setdefault(place, []).append(note)
    lines = [HEADER]
    for place, line in enumerate(said):
        notes = above.get(place, [])
        lines.extend(_note_line(note) for note in notes if not note.beside)
        beside = [_note_line(note) for note in notes if note.beside]
        lines.append(" ".join([line, *beside]))
    lines.extend(_note_line(note) for note in above.get(len(said), []))
    return "\n".join(lines) + "\n"


def _note_line(note: Note) -> str:
    return f"# {note.text}".rstrip()
