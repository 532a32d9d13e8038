"""A whole sketch: a text of the language as a value."""
from __future__ import annotations

from collections.abc import Iterable, Sequence
from dataclasses import dataclass

from pertxogai.cached import cached_on
from pertxogai.language.constraints import Constraint
from pertxogai.language.declared import Declared
from pertxogai.language.elements import Element
from pertxogai.language.entries import check_shape, is_element, read_constraint, read_element
from pertxogai.language.lines import Row, has_word, rows_of, sound_rows
from pertxogai.language.refusal import Code, Faulty, Refusal, Refused


@dataclass(frozen=True)
class Sketch:
    """A sketch of version 1 or 2: its elements and constraints, each numbered from 1 in order.
    Raises Refusal if it isn't valid in the language: a name is taken or unknown, an element has the
    wrong kind, or version 1 has a block. The line that the exception names is that of `text()`."""

    version: int
    elements: tuple[Element, ...]
    constraints: tuple[Constraint, ...]

    def __post_init__(self) -> None:
        if self.version not in (1, 2):
            raise Refusal(Refused(1, Code.E1))
        declared, line = Declared(self.version), 1
        try:
            for line, element in enumerate(self.elements, 2):
                declared.add_element(element)
            for line, constraint in enumerate(self.constraints, 2 + len(self.elements)):
                declared.add_constraint(constraint)
        except Faulty as fault:
            raise Refusal(Refused(line, fault.code)) from None
        if not self.elements:
            raise Refusal(Refused(2, Code.E18))

    @cached_on
    def text(self) -> str:
        """The text in canonical form: header, elements, constraints, `end`. Comments aren't
        kept."""
        lines = [f"sketch {self.version}"]
        lines += [element.text() for element in self.elements]
        lines += [constraint.text() for constraint in self.constraints]
        return "\n".join([*lines, "end", ""])

    @staticmethod
    def parse(text: str) -> Sketch:
        """Reads a sketch. Raises Refusal, with the line and code of the program's answer."""
        sketch, rest = read_sketch(rows_of(text))
        for row in sound_rows(rest):
            if row.words(sketch.version == 2):
                raise row.refusal(Code.E17)
        return sketch


def read_sketch(rows: list[Row]) -> tuple[Sketch, list[Row]]:
    """The sketch that lines begin with, up to its `end`, and the lines behind that. Raises
    Refusal."""
    if not has_word(rows):
        raise Refusal(Refused(0, Code.E18))
    reader = _Reader()
    for row in sound_rows(rows):
        try:
            reader.take(row)
        except Faulty as fault:
            raise row.refusal(fault.code) from None
        if reader.is_ended:
            return reader.sketch(), rows[row.number :]
    raise Refusal(Refused(len(rows) + 1, Code.E16))


class _Reader:
    """The sketch so far."""

    def __init__(self) -> None:
        self.declared: Declared | None = None
        self.constraints: list[Constraint] = []
        self.is_ended = False

    def take(self, row: Row) -> None:
        """Takes a line. Raises Faulty."""
        words = row.words(self.declared is not None and self.declared.version == 2)
        if not words:
            return
        if self.declared is None:
            self.declared = Declared(_version(words))
        elif words[0] == "end":
            self._end(words)
        else:
            add_entry(words, self.declared, self.constraints)

    def _end(self, words: Sequence[str]) -> None:
        if len(words) > 1:
            raise Faulty(Code.E3)
        if not self.declared or not self.declared.elements:
            raise Faulty(Code.E18)
        self.is_ended = True

    def sketch(self) -> Sketch:
        """The sketch of the lines that were taken."""
        assert self.declared is not None
        return Sketch(
            self.declared.version, tuple(self.declared.elements.values()), tuple(self.constraints)
        )


def add_entry(words: Sequence[str], declared: Declared, constraints: list[Constraint]) -> None:
    """Adds the element or constraint of a line to what is declared. Raises Faulty."""
    check_shape(words, declared.version)
    if is_element(words):
        declared.add_element(read_element(words, declared))
    else:
        constraint = read_constraint(words, declared)
        declared.add_constraint(constraint)
        constraints.append(constraint)


def _version(words: Iterable[str]) -> int:
    """The version that a header names. Raises Faulty."""
    for version in (1, 2):
        if list(words) == ["sketch", str(version)]:
            return version
    raise Faulty(Code.E1)
