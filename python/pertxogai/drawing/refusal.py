"""How a drawing is refused."""

from __future__ import annotations


class WordFault(Exception):
    """A word of a shape or a constraint is at fault. `word` is the word as it stands; `what` says
    what is wrong with it and what to write instead, in one line without the word itself."""

    def __init__(self, word: str, what: str) -> None:
        super().__init__(f"'{word}' {what}")
        self.word = word
        self.what = what


class DrawingRefusal(Exception):
    """A text that isn't a drawing. `line` counts from 1, and 0 stands for the whole text. `word` is
    the word at fault, as it stands there; `what` says what is wrong and what to write instead.
    `str` of it is one line."""

    def __init__(self, line: int, word: str, what: str) -> None:
        super().__init__(f"line {line}: '{word}' {what}" if line else f"the text {what}")
        self.line = line
        self.word = word
        self.what = what


class DrawingUnsound(Exception):
    """A drawing that wasn't made from text has a shape or constraint that isn't valid. `where` is
    the name of the shape or constraint; `word` and `what` are those of DrawingRefusal."""

    def __init__(self, where: str, word: str, what: str) -> None:
        super().__init__(f"{where}: '{word}' {what}")
        self.where = where
        self.word = word
        self.what = what
