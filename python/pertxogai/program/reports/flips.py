"""What `flips` answers: for each list of steps, the shape whose choices are turned over."""
from __future__ import annotations

from dataclasses import dataclass

from pertxogai.language.clusters import ClusterName
from pertxogai.program.reports.faults import Fault, take_fault
from pertxogai.program.reports.rows import COUNT, Rows, whole
from pertxogai.program.reports.solved import Shape, take_shape

_OK = f"flip ({COUNT}) ok"
_NO_CHOICE = f"flip ({COUNT}) no-choice s({COUNT})"
_FAULT = f"flip ({COUNT}) fault"


@dataclass(frozen=True)
class NoChoice:
    """The step isn't in the plan, or leaves no choice."""

    step: ClusterName


@dataclass(frozen=True)
class Flipped:
    """The answer to a list, by its number: its shape, why it has none, or the first step that has
    no choice."""

    number: int
    answer: Shape | Fault | NoChoice

    def text(self) -> str:
        """The lines of the report."""
        if isinstance(self.answer, NoChoice):
            return f"flip {self.number} no-choice {self.answer.step.text()}\n"
        state = "ok" if isinstance(self.answer, Shape) else "fault"
        return f"flip {self.number} {state}\n{self.answer.text()}"


def read_flips(text: str) -> tuple[Flipped, ...]:
    """Reads the report of `flips` about a fully constrained sketch. Raises NotAReport."""
    answers: list[Flipped] = []
    with whole(text, "flips") as rows:
        while not rows.is_at_end():
            answers.append(_take_flipped(rows))
            rows.claim(answers[-1].number == len(answers))
    return tuple(answers)


def _take_flipped(rows: Rows) -> Flipped:
    if found := rows.take_if(_OK):
        return Flipped(int(found[1]), take_shape(rows))
    if found := rows.take_if(_FAULT):
        return Flipped(int(found[1]), take_fault(rows))
    found = rows.take(_NO_CHOICE)
    return Flipped(int(found[1]), NoChoice(ClusterName(True, int(found[2]))))
