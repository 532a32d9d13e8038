"""What `check` answers: the verdict and the parts."""
from __future__ import annotations

from dataclasses import dataclass
from enum import Enum

from pertxogai.program.reports.rows import COUNT, NAMES, Rows, whole

_VERDICT = "verdict (well|over|open)"
_ELEMENTS = f"elements ({COUNT})"
_CONSTRAINTS = f"constraints ({COUNT})"
_PARTS = f"parts ({COUNT})"
_PART = (
    f"part ({COUNT}) (sound|over) elements ({COUNT}) held ({COUNT}) due ({COUNT}) : ({NAMES})"
)


class Verdict(Enum):
    """The verdict: fully constrained (WELL), over-constrained (OVER), or under-constrained or not
    found to be rigid (OPEN)."""

    WELL = "well"
    OVER = "over"
    OPEN = "open"

    @property
    def gloss(self) -> str:
        """Its meaning in the words of the trade. An `open` sketch needn't be movable: one that is
        rigid without being built of triangles is `open` too."""
        return _GLOSSES[self]


_GLOSSES = {Verdict.WELL: "fully constrained", Verdict.OVER: "over-constrained",
            Verdict.OPEN: "under-constrained, or rigid in a way not found"}


@dataclass(frozen=True)
class Part:
    """A rigid cluster: how many constraints it has (held) and needs (due), and its elements by
    number."""

    number: int
    over: bool
    elements: tuple[str, ...]
    held: int
    due: int

    def text(self) -> str:
        """The line of the report."""
        state = "over" if self.over else "sound"
        return (
            f"part {self.number} {state} elements {len(self.elements)} held {self.held} due"
            f" {self.due} : {' '.join(self.elements)}\n"
        )


@dataclass(frozen=True)
class CheckReport:
    """The verdict, the numbers of elements and constraints, and the rigid clusters (parts) in
    order."""

    verdict: Verdict
    elements: int
    constraints: int
    parts: tuple[Part, ...]

    def text(self) -> str:
        """The report as the program writes it."""
        head = (
            f"verdict {self.verdict.value}\nelements {self.elements}\nconstraints"
            f" {self.constraints}\n"
            f"parts {len(self.parts)}\n"
        )
        return head + "".join(part.text() for part in self.parts)

    def too_many(self) -> int:
        """By how many constraints the over-constrained clusters exceed what they need."""
        return sum(part.held - part.due for part in self.parts if part.over)


def read_check(text: str) -> CheckReport:
    """Reads the report of `check`. Raises NotAReport."""
    with whole(text, "check") as rows:
        return take_check(rows)


def take_check(rows: Rows) -> CheckReport:
    """The lines of `check`, from the next on. Raises NotAReport."""
    verdict = take_verdict(rows)
    elements, constraints = take_counts(rows)
    count = int(rows.take(_PARTS)[1])
    parts = tuple(take_part(rows, number) for number in range(1, count + 1))
    rows.claim(verdict is verdict_of(parts))
    return CheckReport(verdict, elements, constraints, parts)


def take_verdict(rows: Rows) -> Verdict:
    """The line of the verdict. Raises NotAReport."""
    return Verdict(rows.take(_VERDICT)[1])


def take_counts(rows: Rows) -> tuple[int, int]:
    """The numbers of elements and of constraints. Raises NotAReport."""
    return int(rows.take(_ELEMENTS)[1]), int(rows.take(_CONSTRAINTS)[1])


def take_part(rows: Rows, number: int) -> Part:
    """The line of the part of that number, whose counts fit each other. Raises NotAReport."""
    part = take_any_part(rows)
    rows.claim(part.number == number)
    return part


def take_any_part(rows: Rows) -> Part:
    """The line of a part, whose counts fit each other. Raises NotAReport."""
    found = rows.take(_PART)
    names = tuple(found[6].split())
    held, due = int(found[4]), int(found[5])
    rows.claim(int(found[3]) == len(names))
    rows.claim(
        due == max(2 * len(names) - 3, 0) and held >= due and (found[2] == "over") == (held > due)
    )
    return Part(int(found[1]), found[2] == "over", names, held, due)


def verdict_of(parts: tuple[Part, ...]) -> Verdict:
    """The verdict that a report of these parts has, by which a report that was cut or mixed is
    found out."""
    if any(part.over for part in parts):
        return Verdict.OVER
    return Verdict.WELL if len(parts) == 1 else Verdict.OPEN
