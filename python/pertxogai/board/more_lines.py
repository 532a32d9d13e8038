"""Drawings with more lines, behind all others of their kind; each note stays at what it is at."""
from __future__ import annotations

from collections.abc import Iterable
from dataclasses import replace

from pertxogai.drawing import Constraint, Drawing, Shape
from pertxogai.drawing.drawing import Note


def with_shapes(drawing: Drawing, made: Iterable[Shape]) -> Drawing:
    """A drawing with more shapes, behind all others."""
    more, count = tuple(made), len(drawing.geometry)
    return replace(drawing, geometry=(*drawing.geometry, *more),
                   notes=_shifted(drawing, count, len(more)) if count else drawing.notes)


def with_constraints(drawing: Drawing, made: Iterable[Constraint]) -> Drawing:
    """A drawing with more constraints, behind all others."""
    more, end = tuple(made), len(drawing.geometry) + len(drawing.constraints)
    return replace(drawing, constraints=(*drawing.constraints, *more),
                   notes=_shifted(drawing, end, len(more)))


def _shifted(drawing: Drawing, place: int, by: int) -> tuple[Note, ...]:
    """The notes once so many lines stand before the one at a place, from 0."""
    return tuple(replace(note, before=note.before + by) if note.before >= place else note
                 for note in drawing.notes)
