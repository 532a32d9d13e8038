"""What `parts` answers: the parts, each with where its own elements lie."""
from __future__ import annotations

from dataclasses import dataclass

from pertxogai.program.reports.check import Part, Verdict, take_part, take_verdict, verdict_of
from pertxogai.program.reports.faults import Fault, take_fault
from pertxogai.program.reports.rows import COUNT, Rows, whole
from pertxogai.program.reports.solved import Solved, has_solved, take_solved

_PARTS = f"parts ({COUNT})"


@dataclass(frozen=True)
class PlacedPart:
    """A rigid cluster, and its shape in coordinates of its own; or why it has none; None if the
    cluster is over-constrained."""

    part: Part
    shape: Solved | Fault | None

    def text(self) -> str:
        """The lines of the report."""
        if isinstance(self.shape, Solved):
            return self.part.text() + self.shape.text_behind_verdict()
        return self.part.text() + (self.shape.text() if self.shape else "")


@dataclass(frozen=True)
class PartsReport:
    """The verdict, and the rigid clusters in order, each placed by itself."""

    verdict: Verdict
    parts: tuple[PlacedPart, ...]

    def text(self) -> str:
        """The report as the program writes it."""
        head = f"verdict {self.verdict.value}\nparts {len(self.parts)}\n"
        return head + "".join(part.text() for part in self.parts)


def read_parts(text: str) -> PartsReport:
    """Reads the report of `parts`. Raises NotAReport."""
    with whole(text, "parts") as rows:
        verdict = take_verdict(rows)
        count = int(rows.take(_PARTS)[1])
        parts = tuple(_take_placed(rows, number) for number in range(1, count + 1))
        rows.claim(verdict is verdict_of(tuple(it.part for it in parts)))
    return PartsReport(verdict, parts)


def _take_placed(rows: Rows, number: int) -> PlacedPart:
    part = take_part(rows, number)
    if part.over:
        return PlacedPart(part, None)
    if not has_solved(rows):
        return PlacedPart(part, take_fault(rows))
    shape = take_solved(rows)
    rows.claim(part.elements == tuple(placed.name for placed in shape.places))
    return PlacedPart(part, shape)
