"""What `why` answers: of each part that is over, the constraints that `excess` leaves out of it,
and for each the kept ones that it follows from."""
from __future__ import annotations

import re
from dataclasses import dataclass

from pertxogai.language.constraints import Block, Constraint
from pertxogai.program.reports.check import CheckReport, Part, take_any_part
from pertxogai.program.reports.plan import take_constraint
from pertxogai.program.reports.rows import COUNT, Rows, whole

WORK = 256_000_000
"""What `why` answers within a second or two, by `work_of`."""
_WHY = f"why ({COUNT})"
_FOLLOWS = f"c({COUNT}) : (.*) follows from((?: c{COUNT})+)"


@dataclass(frozen=True)
class Follows:
    """A constraint that is left out: its number, its line, and the numbers of the kept constraints
    that it follows from. Without any one of these it wouldn't follow."""

    number: int
    constraint: Constraint
    because: tuple[int, ...]

    def text(self) -> str:
        """The line of the report."""
        because = "".join(f" c{number}" for number in self.because)
        return f"c{self.number} : {self.constraint.text()} follows from{because}\n"


@dataclass(frozen=True)
class ReasonedPart:
    """An over-constrained cluster, and the constraints that are left out of it, by number."""

    part: Part
    left_out: tuple[Follows, ...]

    def stays_over(self) -> bool:
        """Whether the kept constraints are still over-constrained: those that are left out weigh
        less than the excess."""
        weight = sum(_weight(it.constraint) for it in self.left_out)
        return weight < self.part.held - self.part.due

    def text(self) -> str:
        """The lines of the report."""
        return self.part.text() + "".join(it.text() for it in self.left_out)


@dataclass(frozen=True)
class WhyReport:
    """The over-constrained clusters, in order."""

    parts: tuple[ReasonedPart, ...]

    def stays_over(self) -> bool:
        """Whether the kept constraints of some cluster are still over-constrained."""
        return any(part.stays_over() for part in self.parts)

    def text(self) -> str:
        """The report as the program writes it."""
        return f"why {len(self.parts)}\n" + "".join(part.text() for part in self.parts)


def work_of(check: CheckReport, searched: bool) -> int:
    """How much `why` has to do for a sketch of which this is said. It reads a group off a plan of
    what is kept, in about the time in which it looks through the constraints. searched: what is
    kept is over too, so that each group is searched by halves, which takes as long as many looks
    through the constraints for each of them."""
    if searched:
        return 64 * check.too_many() * check.constraints ** 2
    return (check.too_many() + check.constraints) * check.constraints


def read_why(text: str) -> WhyReport:
    """Reads the report of `why`. Raises NotAReport."""
    with whole(text, "why") as rows:
        parts: list[ReasonedPart] = []
        for _ in range(int(rows.take(_WHY)[1])):
            parts.append(_reasoned_part(rows, parts[-1].part.number if parts else 0))
    return WhyReport(tuple(parts))


def _reasoned_part(rows: Rows, before: int) -> ReasonedPart:
    """The lines of the next part, whose number is above that of the one before. What is left out
    weighs no more than the part holds too much."""
    part = take_any_part(rows)
    rows.claim(part.over and part.number > before)
    left_out = tuple(_follows(rows, found) for found in rows.take_all(_FOLLOWS))
    numbers = [it.number for it in left_out]
    rows.claim(numbers == sorted(set(numbers)))
    rows.claim(not any(number in it.because for it in left_out for number in numbers))
    rows.claim(sum(_weight(it.constraint) for it in left_out) <= part.held - part.due)
    return ReasonedPart(part, left_out)


def _follows(rows: Rows, found: re.Match[str]) -> Follows:
    because = tuple(int(word.removeprefix("c")) for word in found[3].split())
    rows.claim(because == tuple(sorted(set(because))))
    return Follows(int(found[1]), take_constraint(rows, found[2]), because)


def _weight(constraint: Constraint) -> int:
    """As many of the constraints that a part holds as this one is."""
    return 2 * len(constraint.places) - 3 if isinstance(constraint, Block) else 1
