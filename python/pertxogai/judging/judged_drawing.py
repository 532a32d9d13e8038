"""A drawing with the judgement on it, and what of its file the drawing can't say."""

from __future__ import annotations

from dataclasses import dataclass
from typing import TYPE_CHECKING

from pertxogai.drawing import Drawing
from pertxogai.judging.departures import Warned, warnings
from pertxogai.judging.judgement import CountedJudgement, Judgement, WeighedJudgement
from pertxogai.judging.measure.deviation import Deviation, Unit, greatest
from pertxogai.judging.measure.limit import Limit
from pertxogai.judging.measure.solution import Solution
from pertxogai.judging.printed import is_tied

if TYPE_CHECKING:  # Each is imported where it is found: few drawings have any.
    from pertxogai.judging.as_stored import StoredOffs
    from pertxogai.judging.finding import Finding, Nearly, PlacesBy
    from pertxogai.judging.surplus import Surplus


@dataclass(frozen=True)
class JudgedDrawing:
    """A drawing of a file, and the judgement on it. not_drawn: what of the file the drawing can't
    express: what the drawing itself tells of that, and what is given here besides, of a drawing
    that went through a text since it was read. aside: the constraints of the file that only
    measure, or are switched off. limit: the limit for each constraint. finding: the result of the
    search; not_searched: why there is none, if there should be. proposed: lines that would make it
    fully constrained. nearly: the relations that it nearly has. stored: how far the positions
    stored in the file are off. short: by how much the dimensions behind a fault fail to meet. The
    last four are empty if they weren't asked for or aren't known. `pertxogai.judging.good` says
    whether it is good."""

    name: str
    drawing: Drawing
    judgement: Judgement
    not_drawn: tuple[str, ...] = ()
    aside: tuple[str, ...] = ()
    limit: Limit = Limit()
    finding: Finding | None = None
    not_searched: str = ""
    proposed: tuple[str, ...] = ()
    nearly: tuple[Nearly, ...] = ()
    stored: StoredOffs | None = None
    short: str = ""

    def __post_init__(self) -> None:
        known = self.drawing.not_drawn
        more = (each for each in self.not_drawn if each not in known)
        object.__setattr__(self, "not_drawn", (*known, *more))

    def left_out(self) -> tuple[str, ...]:
        """What of the file the drawing can't express, and what of the drawing can't be encoded."""
        return self.not_drawn + self.judgement.left_out

    def places(self) -> Solution | None:
        """Its positions: those of the judgement, else those that the search found."""
        if self.judgement.solution is not None or self.finding is None:
            return self.judgement.solution
        return self.finding.solution

    def places_by(self) -> PlacesBy | None:
        """Where these positions come from."""
        from pertxogai.judging.finding import PlacesBy

        if self.judgement.solution is not None:
            return PlacesBy.PROGRAM
        return self.finding.places_by if self.finding else None

    def all_hold(self) -> bool:
        """Whether the search knows positions at which every constraint holds within the limit, as
        measured."""
        found = self.finding
        return (found is not None and found.solution is not None
                and not any(self.limit.beyond(found.deviations)))

    def surplus(self) -> tuple[Surplus, ...]:
        """If it is over-constrained: each removable dimension. None conflicts where positions are
        known that meet every constraint."""
        if not self.judgement.surplus or not self.all_hold():
            return self.judgement.surplus
        from pertxogai.judging.surplus import where_all_hold

        return where_all_hold(self.judgement.surplus)

    def unmet(self) -> tuple[str, ...] | None:
        """If no shape is found: the constraints without any one of which there is a shape; None
        otherwise, and where positions are known that meet every constraint."""
        judgement = self.judgement
        if not isinstance(judgement, WeighedJudgement) or self.all_hold():
            return None
        return judgement.unmet

    def warnings(self) -> tuple[Warned, ...]:
        """What is placed in another orientation than drawn at these positions, and the edges that
        turn back on each other there."""
        if self.judgement.solution is not None or not self.finding or not self.finding.solution:
            return self.judgement.warnings
        asked = self.judgement.asked
        is_free = not is_tied(asked.axes, asked.spelled)
        return warnings(self.drawing, self.finding.solution, is_free)

    def worst(self) -> tuple[Deviation, ...]:
        """The greatest deviation in nm and the greatest in ppb, if something was measured in that
        unit."""
        deviations = self.judgement.deviations
        if self.judgement.solution is None and self.finding is not None:
            deviations = self.finding.deviations
        found = (greatest(deviations, unit) for unit in Unit)
        return tuple(each for each in found if each is not None)


@dataclass(frozen=True)
class CountedDrawing(JudgedDrawing):
    """A judged drawing with the program's rigid clusters and counts, from which everything about it
    can be reported."""

    judgement: CountedJudgement
