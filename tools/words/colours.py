"""Which words stand out in an editor, and as what: of sketches, and of drawings in a designer's words."""
from dataclasses import dataclass

from .table import CONSTRAINTS, EDITS, ELEMENTS, ENDS, QUESTIONS, STEP_WORDS, TAILS, Line
from pertxogai.drawing.constraint_lines import ConstraintWord
from pertxogai.drawing.shape_lines import Flag, ShapeWord
from pertxogai.drawing.tolerances import check, iso2768
from pertxogai.drawing.values.lines import WORD


@dataclass(frozen=True)
class Words:
    """Words that stand out alike behind what `lead` matches. `name` is what Vim calls their group, `group` and `scope` are
    what Vim and TextMate link them to, `lead_scope` what TextMate links the words of the lead to."""

    name: str
    group: str
    scope: str
    words: tuple[str, ...]
    lead: str = r"^\s*"
    lead_scope: str = ""


@dataclass(frozen=True)
class Language:
    """A kind of text: its name, which is the ending of its files too, its title in an editor, its words, and the units
    that may stand behind a number. Lines that begin with `rows` have `row_words` in any place."""

    name: str
    title: str
    kinds: tuple[Words, ...]
    units: tuple[str, ...] = ()
    rows: str = ""
    row_words: tuple[str, ...] = ()


def _words(lines: tuple[Line, ...]) -> tuple[str, ...]:
    return tuple(line.word for line in lines)


SKETCH = Language("sketch", "Sketch", (
    Words("Frame", "PreProc", "keyword.control", ENDS),
    Words("Element", "Type", "storage.type", _words(ELEMENTS)),
    Words("Constraint", "Statement", "keyword.operator.constraint", _words(CONSTRAINTS)),
    Words("Edit", "Statement", "keyword.other.edit", (*_words(EDITS), *QUESTIONS)),
    Words("Tail", "Statement", "keyword.other.tail", TAILS),
), rows="step", row_words=STEP_WORDS)
FLAGS = tuple(it.value for it in Flag)
FLAGGED = rf"^\s*(({'|'.join(FLAGS)})\s+)*"
DRAWING = Language("drawing", "Drawing", (
    Words("Frame", "PreProc", "keyword.control", ("drawing",)),
    Words("Shape", "Type", "storage.type", tuple(it.value for it in ShapeWord), FLAGGED, "storage.modifier"),
    Words("Flag", "StorageClass", "storage.modifier", FLAGS, FLAGGED),
    Words("Value", "Define", "storage.type.value", (WORD,)),
    Words("Tolerancing", "Define", "storage.type.tolerancing", (iso2768.WORD, check.WORD)),
    Words("Constraint", "Statement", "keyword.operator.constraint", tuple(it.value for it in ConstraintWord), r"(^|:)\s*"),
    Words("Datum", "Constant", "constant.language", ("Origin", "XAxis", "YAxis"), r"\s"),
), units=("mm", "in", "deg", "°"))
