"""What `spare` answers: the constraints of which each may go by itself."""
from __future__ import annotations

from dataclasses import dataclass

from pertxogai.language.constraints import Constraint
from pertxogai.program.reports.plan import take_constraint
from pertxogai.program.reports.rows import COUNT, whole

_SPARE = f"spare ({COUNT})"
_LINE = f"c({COUNT}) : (.*)"


@dataclass(frozen=True)
class Spare:
    """A removable constraint: its number and its line."""

    number: int
    constraint: Constraint

    def text(self) -> str:
        """The line of the report."""
        return f"c{self.number} : {self.constraint.text()}"


def read_spare(text: str) -> tuple[Spare, ...]:
    """Reads the report of `spare`, by number. Raises NotAReport."""
    with whole(text, "spare") as rows:
        found = [rows.take(_LINE) for _ in range(int(rows.take(_SPARE)[1]))]
        spare = tuple(Spare(int(it[1]), take_constraint(rows, it[2])) for it in found)
        numbers = [it.number for it in spare]
        rows.claim(numbers == sorted(set(numbers)))
    return spare


def write_spare(spare: tuple[Spare, ...]) -> str:
    """The report as the program writes it."""
    return "\n".join([f"spare {len(spare)}", *(it.text() for it in spare), ""])
