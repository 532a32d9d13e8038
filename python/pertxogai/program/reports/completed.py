"""What `complete` answers: the sketch with what it lacks, or why none is given."""
from __future__ import annotations

from dataclasses import dataclass
from enum import Enum

from pertxogai.language.refusal import Refusal
from pertxogai.language.sketch import Sketch
from pertxogai.program.reports.check import CheckReport, Verdict, take_check
from pertxogai.program.reports.rows import NotAReport, whole

_NONE = "no completion (over|lines|angles|enough|stuck)"


class Lack(Enum):
    """Why no completion is given; the value is the word in the report."""

    OVER = "over"  #: a part is over
    LINES = "lines"  #: more than two elements, and all are lines
    ANGLES = "angles"  #: angles of the same lines are told along several ways
    ENOUGH = "enough"  #: the constraints weigh what is due, and leave several parts
    STUCK = "stuck"  #: the search found none; there may be one


@dataclass(frozen=True)
class NoCompletion:
    """Why no completion is given, and the report of `check`."""

    why: Lack
    check: CheckReport

    def text(self) -> str:
        """The report as the program writes it."""
        return f"no completion {self.why.value}\n{self.check.text()}"


def read_complete(text: str) -> Sketch:
    """Reads what `complete` writes if it gives a completion. Raises NotAReport."""
    try:
        sketch = Sketch.parse(text)
    except Refusal as refusal:
        raise NotAReport(f"no report of complete: {refusal}") from None
    if sketch.text() != text:
        raise NotAReport("no report of complete: the sketch isn't in its canonical spelling")
    return sketch


def read_no_completion(text: str) -> NoCompletion:
    """Reads what `complete` writes if it gives no completion. Raises NotAReport."""
    with whole(text, "complete") as rows:
        why = Lack(rows.take(_NONE)[1])
        check = take_check(rows)
        rows.claim(check.verdict is not Verdict.WELL)
        rows.claim((why is Lack.OVER) == (check.verdict is Verdict.OVER))
    return NoCompletion(why, check)
