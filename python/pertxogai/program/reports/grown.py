"""What `grow` answers: a summary of `solve` on a sketch that the program makes itself."""
from __future__ import annotations

from dataclasses import dataclass

from pertxogai.program.reports.check import Verdict, take_counts, take_verdict
from pertxogai.program.reports.rows import COUNT, WHOLE, whole
from pertxogai.program.reports.solved import Tolerances, take_tolerances

_GROW = f"grow ({COUNT})"
_STEPS = f"steps ({COUNT})"
_SUM_X = f"sum x ({WHOLE}) nm"
_SUM_Y = f"sum y ({WHOLE}) nm"


@dataclass(frozen=True)
class Grown:
    """The generated sketch: how many elements, constraints and steps it has, the sums of its
    points' coordinates in nm, and the tolerances."""

    elements: int
    constraints: int
    steps: int
    sum_x_nm: int
    sum_y_nm: int
    tolerances: Tolerances

    def text(self) -> str:
        """The report as the program writes it."""
        return (
            f"grow {self.elements}\nelements {self.elements}\nconstraints {self.constraints}\n"
            f"verdict well\n"
            f"steps {self.steps}\nsum x {self.sum_x_nm} nm\nsum y {self.sum_y_nm} nm\n"
            f"{self.tolerances.text()}"
        )


def read_grow(text: str) -> Grown:
    """Reads the report of `grow`. Raises NotAReport."""
    with whole(text, "grow") as rows:
        size = int(rows.take(_GROW)[1])
        elements, constraints = take_counts(rows)
        rows.claim(elements == size)
        rows.claim(take_verdict(rows) is Verdict.WELL)
        steps, sum_x, sum_y = (int(rows.take(form)[1]) for form in (_STEPS, _SUM_X, _SUM_Y))
        return Grown(elements, constraints, steps, sum_x, sum_y, take_tolerances(rows))
