"""What `session` reads: edits of a sketch and questions about it, a line each."""
from __future__ import annotations

import re
from collections.abc import Sequence
from dataclasses import dataclass
from enum import Enum

from pertxogai.language.constraints import Constraint
from pertxogai.language.elements import Element
from pertxogai.language.entries import (
    check_shape, is_element, read_constraint, read_element, read_length, read_tangent)
from pertxogai.language.lines import rows_of, sound_rows
from pertxogai.language.names import checked_name, is_name
from pertxogai.language.numbers import checked_length_um, checked_ratio, mm_text
from pertxogai.language.refusal import Code, Faulty

MOST_NUMBER = 9_999_999
_NUMBER = re.compile("[1-9][0-9]{0,6}")
_COUNTS = {"drop": 2, "set": 3, "erase": 2, "end": 1}


@dataclass(frozen=True)
class Drop:
    """Removes a constraint, by its number."""

    number: int

    def __post_init__(self) -> None:
        _check_number(self.number)

    def text(self) -> str:
        """The line as a session takes it."""
        return f"drop {self.number}"


@dataclass(frozen=True)
class SetLength:
    """Gives the `distance` of that number a new length."""

    number: int
    length_um: int

    def __post_init__(self) -> None:
        _check_number(self.number)
        checked_length_um(self.length_um)

    def text(self) -> str:
        """The line as a session takes it."""
        return f"set {self.number} {mm_text(self.length_um)}"


@dataclass(frozen=True)
class SetRatio:
    """Gives the `angle` of that number a new tangent p/q."""

    number: int
    p: int
    q: int

    def __post_init__(self) -> None:
        _check_number(self.number)
        checked_ratio(self.p, self.q)

    def text(self) -> str:
        """The line as a session takes it."""
        return f"set {self.number} {self.p}/{self.q}"


@dataclass(frozen=True)
class Erase:
    """Removes an element that no constraint uses."""

    name: str

    def __post_init__(self) -> None:
        checked_name(self.name)

    def text(self) -> str:
        """The line as a session takes it."""
        return f"erase {self.name}"


class Ask(Enum):
    """A line of one word: a question about the current sketch, or the undoing of an edit."""

    CHECK = "check"
    PLAN = "plan"
    SOLVE = "solve"
    WRITE = "write"
    UNDO = "undo"

    def text(self) -> str:
        """The line as a session takes it."""
        return self.value


SessionLine = Element | Constraint | Drop | SetLength | SetRatio | Erase | Ask
"""A line of a session: an element, a constraint, an edit or a question."""


@dataclass(frozen=True)
class Session:
    """The lines of a session in order. The program says which of them can be done."""

    lines: tuple[SessionLine, ...]

    def text(self) -> str:
        """The text that `session` reads."""
        return "".join(line.text() + "\n" for line in self.lines)

    @staticmethod
    def parse(text: str) -> Session:
        """Reads a session up to its `end`. Raises Refusal at a line that no session can have, with
        the code of the program's answer."""
        lines: list[SessionLine] = []
        for row in sound_rows(rows_of(text)):
            words = row.words(True)
            try:
                line = _line(words) if words else None
            except Faulty as fault:
                raise row.refusal(fault.code) from None
            if words == ["end"]:
                break
            lines += [line] if line else []
        return Session(tuple(lines))


def _line(words: Sequence[str]) -> SessionLine | None:
    """The line of words, None for the `end`. Raises Faulty."""
    first = words[0]
    ask = next((each for each in Ask if each.value == first), None)
    if ask is None and first not in _COUNTS:
        check_shape(words, 2)
        return read_element(words, None) if is_element(words) else read_constraint(words, None)
    if len(words) != (1 if ask else _COUNTS[first]):
        raise Faulty(Code.E3)
    return ask or _edit(words)


def _edit(words: Sequence[str]) -> SessionLine | None:
    """The edit of as many words as it has, None for the `end`. Raises Faulty."""
    match words[0]:
        case "end":
            return None
        case "erase":
            if not is_name(words[1]):
                raise Faulty(Code.E4)
            return Erase(words[1])
        case "drop":
            return Drop(_number(words[1]))
    return _set(words)


def _set(words: Sequence[str]) -> SetLength | SetRatio:
    number = _number(words[1])
    if "/" in words[2]:
        return SetRatio(number, *read_tangent(words[2]))
    return SetLength(number, read_length(words[2]))


def _number(word: str) -> int:
    if not _NUMBER.fullmatch(word):
        raise Faulty(Code.E8)
    return int(word)


def _check_number(number: int) -> None:
    if not 1 <= number <= MOST_NUMBER:
        raise ValueError(f"the number of a constraint is from 1 to {MOST_NUMBER}")
