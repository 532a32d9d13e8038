"""What is written where a text or the words are refused."""
from __future__ import annotations

from dataclasses import dataclass

from pertxogai.language.refusal import Code, Refused
from pertxogai.program.reports.rows import COUNT, Rows, whole

_REFUSED = f"refused line ({COUNT}) ([ES][1-9][0-9]?) ([a-z-]+)"
_USAGE = "(usage: sketch [ -~]+)"


@dataclass(frozen=True)
class Usage:
    """The arguments aren't valid. The line lists all that are, and doesn't say which is wrong."""

    line: str

    def text(self) -> str:
        """The line that the program writes."""
        return self.line + "\n"


def read_refusal(text: str) -> Refused:
    """Reads a rejection from its line. Raises NotAReport."""
    with whole(text, "a refusal") as rows:
        found = rows.take(_REFUSED)
        return Refused(int(found[1]), code_of(rows, found[2], found[3]))


def read_usage(text: str) -> Usage:
    """Reads the usage line. Raises NotAReport."""
    with whole(text, "usage") as rows:
        return Usage(rows.take(_USAGE)[1])


def code_of(rows: Rows, code: str, word: str) -> Code:
    """The code of that name and word. Raises NotAReport."""
    rows.claim(code in Code.__members__ and Code[code].word == word)
    return Code[code]
