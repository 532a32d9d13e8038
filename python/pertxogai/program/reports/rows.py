"""The lines of a report, taken one by one, each by its form."""
from __future__ import annotations

import re
from collections.abc import Iterator
from contextlib import contextmanager
from typing import TYPE_CHECKING

from pertxogai.program.errors import ProgramSpoke

if TYPE_CHECKING:
    from pertxogai.language.clusters import ClusterName

NAME = r"[A-Za-z][A-Za-z0-9_]{0,15}"
COUNT = r"(?:0|[1-9][0-9]*)"
WHOLE = r"(?:0|-?[1-9][0-9]*)"
CLUSTER = r"[cs][1-9][0-9]*"
NAMES = rf"{NAME}(?: {NAME})*"


ANOTHER_PROGRAM = "is the program that was asked `sketch`? PERTXOGAI_SKETCH names another"
"""What to do about a text that has no form of the program's."""


class NotAReport(ProgramSpoke):
    """A text isn't a report of the command that it should come from."""


class Rows:
    """The lines of a report from a place on. A form is a regular expression, which is compiled once
    a line is first compared with it."""

    def __init__(self, text: str, what: str) -> None:
        self.what = what
        self.lines = text.split("\n")
        self.next = 0
        if self.lines.pop():
            raise NotAReport(f"no report of {what}: its last line has no end: {ANOTHER_PROGRAM}")

    def take(self, form: str) -> re.Match[str]:
        """The next line, which has a form. Raises NotAReport."""
        found = self.take_if(form)
        if found is None:
            raise self.fault()
        return found

    def take_if(self, form: str) -> re.Match[str] | None:
        """The next line where it has a form, else None, and it stays."""
        found = re.fullmatch(form, self.lines[self.next]) if self.next < len(self.lines) else None
        if found is not None:
            self.next += 1
        return found

    def take_all(self, form: str) -> Iterator[re.Match[str]]:
        """The next lines, as long as they have a form."""
        found = self.take_if(form)
        while found is not None:
            yield found
            found = self.take_if(form)

    def has(self, form: str) -> bool:
        """Whether the next line has a form."""
        return self.next < len(self.lines) and re.fullmatch(form, self.lines[self.next]) is not None

    def is_at_end(self) -> bool:
        """Whether no line is left."""
        return self.next == len(self.lines)

    def claim(self, holds: bool) -> None:
        """Raises NotAReport where what the line before says doesn't fit the lines around it."""
        if not holds:
            self.next -= 1
            raise self.fault()

    def fault(self) -> NotAReport:
        """That the next line isn't what it should be."""
        line = repr(self.lines[self.next][:80]) if self.next < len(self.lines) else "its end"
        return NotAReport(f"no report of {self.what}: line {self.next + 1} is {line}: "
                          f"{ANOTHER_PROGRAM}")


@contextmanager
def whole(text: str, what: str) -> Iterator[Rows]:
    """The lines of a text that is all one report. Raises NotAReport where some are left."""
    rows = Rows(text, what)
    yield rows
    if not rows.is_at_end():
        raise rows.fault()


def cluster(word: str) -> ClusterName:
    """The cluster of a word that is one's name."""
    from pertxogai.language.clusters import ClusterName  # What is placed names none.

    return ClusterName(word[0] == "s", int(word[1:]))
