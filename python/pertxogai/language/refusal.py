"""How a text is refused: a line, a code and its word, as docs/LANGUAGE.md lists them."""
from __future__ import annotations

from dataclasses import dataclass
from enum import Enum


class Code(Enum):
    """The code of a rejection; its value is the word that follows the code."""

    E1 = "header"
    E2 = "word"
    E3 = "shape"
    E4 = "name"
    E5 = "name-taken"
    E6 = "unknown"
    E7 = "kind"
    E8 = "number"
    E9 = "zero"
    E10 = "same"
    E11 = "drawn-flat"
    E12 = "variable-radius"
    E13 = "too-many-elements"
    E14 = "too-many-constraints"
    E15 = "line-too-long"
    E16 = "no-end"
    E17 = "after-end"
    E18 = "empty"
    E19 = "not-ascii"
    E20 = "too-long"
    E21 = "too-many-flips"
    S1 = "no-such-number"
    S2 = "in-use"
    S3 = "nothing-to-undo"
    S4 = "no-value"
    S5 = "edits-spent"

    @property
    def word(self) -> str:
        """The word that follows the code."""
        return self.value

    @property
    def advice(self) -> str:
        """What to do about a text that is rejected with this code, in a few words."""
        return _ADVICE.get(self, "check that line")


_ADVICE = {
    Code.E1: "begin the text with `sketch 1` or `sketch 2`",
    Code.E2: "check the first word for a slip; comments and blocks need `sketch 2`",
    Code.E3: "check for a missing word, or one too many",
    Code.E4: "write a letter, and up to 15 letters, digits or _",
    Code.E5: "take another name",
    Code.E6: "declare that name in a line above",
    Code.E7: "check which elements the word takes",
    Code.E8: "write a number of at most 1000000, with at most three decimals",
    Code.E9: "write points that coincide as one point, and a length above 0",
    Code.E10: "name two elements",
    Code.E11: "draw the line through two different points",
    Code.E12: "give the radius",
    Code.E13: "split the sketch: it may have at most 2000 elements",
    Code.E14: "split the sketch: it may have at most 4000 constraints",
    Code.E15: "write 200 letters at most",
    Code.E16: "write `end` as the last line",
    Code.E17: "remove everything after `end`",
    Code.E18: "add an element: the text has none",
    Code.E19: "use ASCII: is it a text of the language?",
    Code.E20: "split the sketch: its text may have at most 1 MiB",
}


@dataclass(frozen=True)
class Refused:
    """A text is rejected at a line (from 1; 0 is the whole text) with a code."""

    line: int
    code: Code

    def text(self) -> str:
        """The report that the program writes."""
        return f"refused line {self.line} {self.code.name} {self.code.word}\n"


class Refusal(ValueError):
    """A text, or a sketch made of values, isn't valid in the language."""

    def __init__(self, refused: Refused) -> None:
        super().__init__(refused.text().rstrip())
        self.refused = refused


class Faulty(Exception):
    """A line is refused by a code, whatever its number."""

    def __init__(self, code: Code) -> None:
        super().__init__(code.name)
        self.code = code
