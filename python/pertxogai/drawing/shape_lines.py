"""Lines that draw: point, segment, circle, arc, polyline, rectangle."""

from __future__ import annotations

from dataclasses import replace
from enum import Enum

from pertxogai.drawing.cursor import Cursor
from pertxogai.drawing.geometry import Anchor, Arc, Circle, Point, Segment, Shape
from pertxogai.drawing.names import check_shape_name, nearest
from pertxogai.drawing.refusal import WordFault
from pertxogai.drawing.shorthands import Expansion, polyline, rectangle
from pertxogai.drawing.soundness import check_shape


class ShapeWord(Enum):
    """The words that draw."""

    POINT = "point"
    SEGMENT = "segment"
    CIRCLE = "circle"
    ARC = "arc"
    POLYLINE = "polyline"
    RECTANGLE = "rectangle"


class Flag(Enum):
    """The words that may stand in front of those."""

    CONSTRUCTION = "construction"
    OUTER = "outer"


def read_shape(word: ShapeWord, flags: frozenset[Flag], words: Cursor) -> Expansion:
    """What a line that draws says; the cursor stands behind its first word. The shapes are put
    to the cursor's scene."""
    name = words.word("a name")
    check_shape_name(name)
    _check_blank(word, name, words)
    said = _read_shape(word, name, words)
    words.end()
    shapes = tuple(_with_flags(shape, flags) for shape in said.shapes)
    for shape in shapes:
        check_shape(words.scene, shape)
        words.scene.add(shape)
    # What is given from outside lies as it is drawn: nothing has to ask that of it.
    return Expansion(shapes, () if Flag.OUTER in flags else said.constraints)


def _check_blank(word: ShapeWord, name: str, words: Cursor) -> None:
    """Raises WordFault at a word behind the name that may be meant as a part of it."""
    second = words.peek()
    if not second.isidentifier() or words.scene.has(second):
        return
    belongs = f"{name}_{second} if it belongs to the name"
    if word is ShapeWord.POINT:
        raise WordFault(second, f"is no number: write one for x, or {belongs}")
    near = nearest(second, words.scene.names())
    raise WordFault(second, f"isn't drawn: write its line further up, or {belongs}{near}")


def _with_flags(shape: Shape, flags: frozenset[Flag]) -> Shape:
    return replace(shape, construction=Flag.CONSTRUCTION in flags, outer=Flag.OUTER in flags)


def _read_shape(word: ShapeWord, name: str, words: Cursor) -> Expansion:
    match word:
        case ShapeWord.POINT:
            return Expansion((Point(name, words.place()),))
        case ShapeWord.SEGMENT:
            return Expansion((Segment(name, words.spot("its start"), words.spot("its end")),))
        case ShapeWord.CIRCLE:
            circle = Circle(name, words.spot("its centre"), words.um("its drawn radius"))
            return Expansion((circle,))
        case ShapeWord.ARC:
            return Expansion((Arc(name, words.spot("its centre"), words.spot("its start"),
                             words.spot("its end")),))
        case ShapeWord.POLYLINE:
            corners = _corners(words)
            closed = words.took("closed")
            return polyline(name, corners, closed)
        case ShapeWord.RECTANGLE:
            return rectangle(words.scene, name, words.spot("a corner"),
                             words.spot("the opposite corner"))


def _corners(words: Cursor) -> tuple[Anchor, ...]:
    corners: list[Anchor] = []
    while words.left() and words.peek() != "closed":
        corners.append(words.spot("a corner"))
    return tuple(corners)
