"""A number that several lines take, as a value of the drawing: so it is changed in one place."""
from __future__ import annotations

from collections.abc import Sequence
from itertools import count

from pertxogai.board.head_lines import with_head
from pertxogai.drawing import Drawing, Value, read_expression

Lines = Sequence[tuple[str, ...]]


def named(drawing: Drawing, lines: Lines, word: str, stem: str,
          text: str) -> tuple[Drawing, Lines]:
    """A drawing, and lines that are to be asked of it. Where several of them begin with a word, and
    end with a number, that is a value of the drawing under a free name with that stem. text: the
    number as it is written."""
    if sum(words[0] == word for words in lines) < 2:
        return drawing, lines
    taken = {each.name for each in (*drawing.geometry, *drawing.values)}
    name = next(each for each in (f"{stem}{number}" for number in count(1)) if each not in taken)
    value = Value(name, read_expression(text))
    return (with_head(drawing, values=(*drawing.values, value)),
            [(*words[:-1], name) if words[0] == word else words for words in lines])
