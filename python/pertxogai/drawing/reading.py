"""The text of a drawing, read.

A line draws a shape, asks for a constraint, names a value, or says of tolerances and of what must
fit; `#` begins a note; blank lines are passed over. A shape is drawn in a line above the one that
uses it; a value or a check stands in any line. A constraint may have a name in front, as `Left
width: length Bottom 120`. The first line may be `drawing 1`.
"""

from __future__ import annotations

from collections.abc import Sequence
from enum import Enum
from typing import NamedTuple

from pertxogai.drawing.constraint_checks import check_constraint
from pertxogai.drawing.constraint_lines import ConstraintWord, read_constraints
from pertxogai.drawing.constraints import Constraint
from pertxogai.drawing.cursor import Cursor
from pertxogai.drawing.drawing import Drawing, Note
from pertxogai.drawing.geometry import Shape
from pertxogai.drawing.named_shapes import NamedShapes
from pertxogai.drawing.names import nearest
from pertxogai.drawing.refusal import DrawingRefusal, WordFault
from pertxogai.drawing.shape_lines import Flag, ShapeWord, read_shape
from pertxogai.drawing.shorthands import Expansion
from pertxogai.drawing.soundness import check_name
from pertxogai.drawing.tolerances.check import (
    WORD as CHECK, Check, Tolerancing, check_check_name, read_check)
from pertxogai.drawing.tolerances.iso2768 import WORD as TOLERANCES, GeneralTolerance, read_general
from pertxogai.drawing.values.table import MOST_VALUES, Value, ValueFault, Values
from pertxogai.drawing.values.lines import WORD, WrittenValues, read_value
from pertxogai.drawing.writing import HEADER

HEAD_WORDS = (WORD, TOLERANCES, CHECK)
"""The words of lines that stand anywhere, and are written before the shapes."""

MOST_BYTES = 1_048_576
"""No text is longer, as in the language."""

MOST_SHAPES = 2_000
"""No text has more shapes: the program takes no more elements."""

MOST_CONSTRAINTS = 4_000
"""No text has more constraints, as in the language."""

MOST_LETTERS = 1_000
"""No line is longer."""


def read_drawing(text: str) -> Drawing:
    """Reads a drawing from its text. Raises DrawingRefusal at its first faulty line."""
    if len(text.encode("utf-8", "surrogatepass")) > MOST_BYTES:
        raise DrawingRefusal(0, "", f"has more than {MOST_BYTES} bytes: split the drawing")
    lines = [line.removesuffix("\r") for line in text.split("\n")]
    written = WrittenValues.of(line if len(line) <= MOST_LETTERS else "" for line in lines)
    reader = _Reader(written.values())
    for number, line in enumerate(lines, start=1):
        try:
            reader.take(number, line)
        except ValueFault as fault:
            at = written.line_of(fault.name)
            raise DrawingRefusal(at, fault.word, fault.what) from None
        except WordFault as fault:
            raise DrawingRefusal(number, fault.word, fault.what) from None
    if not reader.shapes:
        raise DrawingRefusal(0, "", "draws nothing: write a line such as `segment Bottom 0 0 40 0`")
    reader.read_checks()
    return reader.drawing()


class _Kind(Enum):
    """What a line says."""

    VALUE = "value"
    GENERAL = "tolerances"
    CHECK = "check"
    SHAPE = "shape"
    CONSTRAINT = "constraint"


class _Mark(NamedTuple):
    """What a note stands at: the value, class of tolerances, check, shape or constraint of this
    place among its own."""

    text: str
    kind: _Kind
    place: int
    beside: bool


class _Reader:
    """What stands above the line that is read."""

    def __init__(self, values: Values) -> None:
        self.shapes: list[Shape] = []
        self._constraints: list[Constraint] = []
        self._values: list[Value] = []
        self._general: list[GeneralTolerance] = []
        self._checks: list[tuple[int, list[str]]] = []
        self._marks: list[_Mark] = []
        self._loose: list[str] = []
        self._read: list[Check] = []
        self._names: set[str] = set()
        self._scene = NamedShapes(values=values)
        self._began = False

    def take(self, number: int, line: str) -> None:
        """The line of that number; raises WordFault where it is refused."""
        _check_text(line)
        said, mark, note = line.partition("#")
        if not said.strip():
            self._loose.extend([note.strip()] if mark else [])
            return
        first = not self._began
        self._began = True
        if first and said.split() == HEADER.split():
            return
        places = {_Kind.VALUE: len(self._values), _Kind.GENERAL: 0,
                  _Kind.CHECK: len(self._checks), _Kind.SHAPE: len(self.shapes),
                  _Kind.CONSTRAINT: len(self._constraints)}
        kind = self._say(number, said)
        self._marks.extend(_Mark(text, kind, places[kind], False) for text in self._loose)
        self._marks.extend([_Mark(note.strip(), kind, places[kind], True)] if mark else [])
        self._loose.clear()

    def _say(self, number: int, said: str) -> _Kind:
        """Takes what the line of that number says."""
        name, colon, rest = said.rpartition(":")
        words = rest.split()
        if not words:
            raise WordFault(said.strip(), "names nothing: write a constraint behind the colon")
        flags, words = _flags(words)
        if words[0] in HEAD_WORDS:
            if flags:
                raise WordFault(words[0], "names no shape, and only shapes are construction or "
                                          "outer")
            return self._head(number, words, name.strip() if colon else None)
        word = _word(words[0])
        if isinstance(word, ShapeWord):
            if colon:
                raise WordFault(name.strip(), "is a name in front of a shape, whose name stands "
                                f"behind its word: write {word.value} NAME ..")
            self._draw(read_shape(word, flags, Cursor(self._scene, words)))
            return _Kind.SHAPE
        if flags:
            raise WordFault(words[0], "is no shape, and only shapes are construction or outer")
        self._ask(word, words, name.strip() if colon else None)
        return _Kind.CONSTRAINT

    def _head(self, number: int, words: list[str], called: str | None) -> _Kind:
        """What may stand in any line: a value, the general tolerances, a check."""
        if words[0] == WORD:
            self._name_value(words, called)
            return _Kind.VALUE
        if called is not None:
            raise WordFault(called, f"is a name in front of {words[0]}, which takes none there")
        if words[0] == CHECK:
            self._checks.append((number, words))
            return _Kind.CHECK
        if len(words) != 2 or self._general:
            raise WordFault(words[0], f"stands in one line, with one class: write {TOLERANCES} "
                                      "ISO2768-m")
        self._general.append(read_general(words[1]))
        return _Kind.GENERAL

    def read_checks(self) -> None:
        """Reads what was said of checks, once all shapes are known. Raises DrawingRefusal."""
        names: set[str] = set()
        for number, words in self._checks:
            try:
                check = read_check(self._scene, words)
                check_check_name(check.name, names)
                self._read.append(check)
            except WordFault as fault:
                raise DrawingRefusal(number, fault.word, fault.what) from None

    def _name_value(self, words: Sequence[str], called: str | None) -> None:
        value = read_value(words, called)
        if self._scene.has(value.name):
            raise WordFault(value.name, "is drawn already: take another name")
        if any(each.name == value.name for each in self._values):
            raise WordFault(value.name, "is a value already: take another name")
        if len(self._values) == MOST_VALUES:
            raise WordFault(value.name, f"is one more than {MOST_VALUES} values: leave some out")
        self._scene.values.quantity(value.name)
        self._values.append(value)

    def _draw(self, said: Expansion) -> None:
        self.shapes.extend(said.shapes)
        self._constraints.extend(said.constraints)
        if len(self.shapes) > MOST_SHAPES:
            raise WordFault(self.shapes[-1].name, f"is one more than {MOST_SHAPES} shapes: split "
                                                  "the drawing")

    def _ask(self, word: ConstraintWord, words: list[str], name: str | None) -> None:
        if name is not None:
            check_name(name, self._names)
        for constraint in read_constraints(word, Cursor(self._scene, words), name):
            check_constraint(self._scene, constraint)
            self._constraints.append(constraint)
        if len(self._constraints) > MOST_CONSTRAINTS:
            raise WordFault(words[0], f"is one more than {MOST_CONSTRAINTS} constraints: split "
                                      "the drawing")

    def drawing(self) -> Drawing:
        """The drawing of all lines."""
        shapes, constraints = tuple(self.shapes), tuple(self._constraints)
        checks, general = len(self._checks), len(self._general)
        first = {_Kind.VALUE: -len(self._values) - general - checks,
                 _Kind.GENERAL: -general - checks, _Kind.CHECK: -checks, _Kind.SHAPE: 0,
                 _Kind.CONSTRAINT: len(shapes)}
        notes = [Note(mark.text, first[mark.kind] + mark.place, mark.beside)
                 for mark in self._marks]
        notes.extend(Note(text, len(shapes) + len(constraints)) for text in self._loose)
        return Drawing(shapes, constraints, tuple(sorted(notes, key=lambda note: note.before)),
                       tuple(self._values),
                       Tolerancing(next(iter(self._general), None), tuple(self._read)))


def _check_text(line: str) -> None:
    for letter in line:
        if not (letter.isprintable() or letter == "\t"):
            raise WordFault(f"U+{ord(letter):04X}", "is no letter of a text: is this a drawing?")
    if len(line) > MOST_LETTERS:
        raise WordFault(line[:20] + "..", f"begins a line of more than {MOST_LETTERS} letters: "
                                          "write shorter ones")


def _flags(words: list[str]) -> tuple[frozenset[Flag], list[str]]:
    """The flags in front of a line's word, and the words behind them."""
    flags: set[Flag] = set()
    values = {flag.value for flag in Flag}
    for place, word in enumerate(words):
        if word not in values:
            return frozenset(flags), words[place:]
        flags.add(Flag(word))
    raise WordFault(words[-1], "is the last word, and a shape's word is missing behind it")


def _word(word: str) -> ShapeWord | ConstraintWord:
    """The word that says what a line is."""
    if word in {each.value for each in ShapeWord}:
        return ShapeWord(word)
    if word in {each.value for each in ConstraintWord}:
        return ConstraintWord(word)
    raise WordFault(word, _advice(word))


def _advice(word: str) -> str:
    """What to write for a word that begins no line."""
    match word.lower():
        case "line" | "edge":
            return "is no word of a drawing: write `segment NAME START END`"
        case "sketch":
            return ("begins a sketch of the language, and no drawing: keep it in a file whose "
                    "name ends in .sketch, and open that")
        case "drawing":
            return "begins only the first line of the text, `drawing 1`"
        case "end":
            return "is no word of a drawing, which has no last line: leave it out"
        case "outside" | "inside":
            return "is a word of the sketch language: in a drawing, write `tangent CIRCLE CIRCLE`"
        case "block":
            return "is a word of the sketch language, and none of a drawing: leave it out"
        case "width" | "height" | "dimension" | "dim":
            return "is no word of a drawing: write `length SEGMENT 40` or `distance A B 40`"
    known = [each.value for kind in (ShapeWord, ConstraintWord, Flag) for each in kind]
    known.extend(HEAD_WORDS)
    near = nearest(word, known).removeprefix(", or ")
    return f"begins no line: {near or 'write one of ' + ', '.join(known)}"
