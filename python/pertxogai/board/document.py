"""The document of the board: a drawing's text, which may still be empty."""
from __future__ import annotations

from dataclasses import replace
from itertools import count

from pertxogai.drawing import Drawing, DrawingRefusal, read_drawing, write_drawing
from pertxogai.drawing.tolerances.iso2768 import WORD as TOLERANCES
from pertxogai.drawing.values.lines import WORD
from pertxogai.drawing.writing import HEADER


def read_document(text: str) -> Drawing:
    """The drawing of a text; one without shapes where nothing is drawn in it yet. Raises
    DrawingRefusal."""
    try:
        return read_drawing(text)
    except DrawingRefusal:
        if draws_nothing(text):
            return _undrawn(text)
        raise


def _undrawn(text: str) -> Drawing:
    """What a text says that draws nothing: that of the same text with a point, without the point.
    Raises DrawingRefusal."""
    name = next(each for each in map("P{}".format, count(1)) if each not in text)
    drawing = read_drawing(f"{text.rstrip()}\npoint {name} 0 0\n")
    return replace(drawing, geometry=())


def draws_nothing(text: str) -> bool:
    """Whether a text has notes, values, a class of tolerances and blank lines alone, or the line of
    its version besides."""
    said = [line.partition("#")[0].split() for line in text.split("\n")]
    return [words for words in said
            if words and words[0] not in (WORD, TOLERANCES)] in ([], [HEADER.split()])


def write_document(drawing: Drawing) -> str:
    """The text of a drawing."""
    return write_drawing(drawing)
