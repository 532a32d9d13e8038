"""What is proposed to a designer, in the drawing's own words, and what each line fixes."""
from __future__ import annotations

from collections.abc import Iterator
from dataclasses import dataclass
from enum import Enum

from pertxogai.drawing import Constraint, Drawing, line_of
from pertxogai.judging import GoodJudgement, JudgedDrawing
from pertxogai.judging.measure import Solution
from pertxogai.program.called import COMMAND
from pertxogai.program.reports import Verdict

MOST_SECONDS = 20.0
"""The seconds of a processor after which nothing more is tried, unless fewer are asked for."""


@dataclass(frozen=True)
class Proposal:
    """A constraint to add. fixes: what it fixes of the drawing, wholly or in a direction, in words;
    found by numbers. drawn: the same as it is drawn, where that isn't what is proposed."""

    constraint: Constraint
    fixes: tuple[str, ...] = ()
    drawn: Constraint | None = None

    def line(self) -> str:
        """The line to add."""
        return line_of(self.constraint)


@dataclass(frozen=True)
class Completion:
    """A completed drawing, which is good, but for what its file has and it can't express.
    proposals: the dimensions and relations that were added. datum: apart from these, what ties the
    whole to the origin and the axes. judged: the drawing with all of these, and the judgement on
    it. ties_the_whole: whether the whole is tied; otherwise it may still
    be moved, since nothing was found that ties it and can be placed."""

    proposals: tuple[Proposal, ...]
    datum: tuple[Proposal, ...]
    judged: JudgedDrawing
    ties_the_whole: bool = True

    @property
    def drawing(self) -> Drawing:
        """The drawing with all of these."""
        return self.judged.drawing

    @property
    def solution(self) -> Solution:
        """Where it lies with all of these, in whole nanometres."""
        assert self.judged.judgement.solution is not None
        return self.judged.judgement.solution

    @property
    def good(self) -> GoodJudgement:
        """The judgement on the drawing with all of these. Raises NotGood where its file has what
        it can't express."""
        return GoodJudgement(self.judged)

    def all(self) -> Iterator[Proposal]:
        """Everything that was added; what ties the whole comes last."""
        yield from self.proposals
        yield from self.datum


class WhyNot(Enum):
    """Why nothing is proposed; the values are for people to read."""

    NOTHING = "nothing is missing"
    OVER = f"it is over-constrained: first remove a dimension that {COMMAND} judge lists"
    NO_PLACES = "no positions were found that meet all of it (by numbers)"
    VANISHED = ("positions that meet all of it were only found with an edge or a circle of no size "
                "(by numbers)")
    TOO_MUCH = "too much of it is free (by numbers): dimension a part of it first"
    RIGID = "nothing of it can move (by numbers), though the program doesn't find it rigid"
    STUCK = "no dimensions were found with which it is well, placed and good"


@dataclass(frozen=True)
class NoProposal:
    """Nothing is proposed. verdict and is_placed: what the program says about the drawing. is_good:
    whether it is good as it stands."""

    why: WhyNot
    verdict: Verdict
    is_placed: bool
    is_good: bool = False
