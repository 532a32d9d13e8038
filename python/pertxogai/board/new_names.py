"""Names that are free, for what is drawn on the board."""
from __future__ import annotations

from collections.abc import Iterable
from enum import Enum
from itertools import count

from pertxogai.drawing import Drawing


class Figure(Enum):
    """What is drawn by a tool of the board."""

    POINT = "point"
    SEGMENT = "segment"
    CIRCLE = "circle"
    ARC = "arc"
    RECTANGLE = "rectangle"
    SLOT = "slot"
    POLYGON = "polygon"
    CENTRE_RECTANGLE = "centre-rectangle"
    TANGENT_ARC = "tangent-arc"


_FIRST_LETTER = {
    Figure.POINT: "P",
    Figure.SEGMENT: "S",
    Figure.CIRCLE: "C",
    Figure.ARC: "A",
    Figure.RECTANGLE: "R",
    Figure.SLOT: "L",
    Figure.POLYGON: "G",
    Figure.CENTRE_RECTANGLE: "R",
    Figure.TANGENT_ARC: "A",
}
_OF_SEVERAL = frozenset(
    {Figure.RECTANGLE, Figure.SLOT, Figure.POLYGON, Figure.CENTRE_RECTANGLE})
"""Figures of several shapes, whose names begin with that of the figure."""


def free_name(drawing: Drawing, figure: Figure, others: Iterable[str] = ()) -> str:
    """The first of S1, S2, .. that no shape has, nor begins with, and that is none of others."""
    letter = _FIRST_LETTER[figure]
    taken = {*(each.name for each in (*drawing.geometry, *drawing.values)), *others}
    stems = tuple(taken) if figure in _OF_SEVERAL else ()
    return next(name for name in (f"{letter}{number}" for number in count(1))
                if name not in taken and not _begins(stems, name))


def _begins(names: Iterable[str], stem: str) -> bool:
    """Whether one of the names is that of a shape of the figure `stem`."""
    return any(name.startswith(stem) and not name[len(stem):len(stem) + 1].isdigit()
               for name in names)
