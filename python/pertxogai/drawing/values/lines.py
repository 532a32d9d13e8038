"""Lines that name a value, as `value Width 120`."""

from __future__ import annotations

from collections.abc import Iterable, Sequence
from typing import TYPE_CHECKING, NamedTuple

from pertxogai.drawing.refusal import WordFault
from pertxogai.drawing.tolerances.tolerance import split_tolerance
from pertxogai.drawing.values.table import Value, Values, check_value_name

if TYPE_CHECKING:
    from pertxogai.drawing.values.expression import Expression

WORD = "value"
"""The first word of the line of a value."""


def read_value(words: Sequence[str], called: str | None = None) -> Value:
    """The value of a line's words. called: the name that stands in front of them. Raises
    WordFault."""
    if called is not None:
        raise WordFault(called, "is a name in front of a value, whose name stands behind its word: "
                                f"write {WORD} NAME ..")
    if len(words) < 2:
        raise WordFault(WORD, "is the last word, and a name is missing behind it: write "
                              f"{WORD} Width 120")
    check_value_name(words[1])
    if len(words) == 2:
        raise WordFault(words[1], "has no value: write a number behind it, such as "
                                  f"{WORD} {words[1]} 120")
    return Value(words[1], read_value_expression(" ".join(words[2:])))


def read_value_expression(text: str) -> Expression:
    """The expression of a value. Raises WordFault, also at a tolerance behind it, which as a sum
    would be another number."""
    from pertxogai.drawing.values.parsing import read_expression

    check_untoleranced(text)
    return read_expression(text)


def check_untoleranced(text: str) -> None:
    """Raises WordFault where the last word of a number or an expression is a tolerance."""
    _, tolerance = split_tolerance(text)
    if tolerance:
        raise WordFault(tolerance, "is a tolerance, which only the line of a dimension has: write "
                                   "it there, or a sum with blanks around its signs")


class WrittenValues(NamedTuple):
    """The values of a text by the numbers of their lines, from 1; of one that is refused, why."""

    lines: tuple[tuple[int, str, Value | WordFault], ...]

    @staticmethod
    def of(lines: Iterable[str]) -> WrittenValues:
        """The values that some lines name."""
        found = []
        for number, line in enumerate(lines, start=1):
            said = line.partition("#")[0]
            words = said.split()
            if words[:1] == [WORD] and len(words) > 1 and ":" not in said:
                found.append((number, words[1], _read(words)))
        return WrittenValues(tuple(found))

    def values(self) -> Values:
        """The table of them. Where a name stands twice, its first line counts."""
        first = {name: value for _, name, value in reversed(self.lines)}
        return Values((each for each in first.values() if isinstance(each, Value)),
                      {name: each for name, each in first.items() if isinstance(each, WordFault)})

    def line_of(self, name: str) -> int:
        """The number of the first line that names a value so."""
        return next(number for number, each, _ in self.lines if each == name)


def _read(words: Sequence[str]) -> Value | WordFault:
    try:
        return read_value(words)
    except WordFault as fault:
        return fault
