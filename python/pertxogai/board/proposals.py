"""What completes a drawing, as the page is told it: each line that could be added, what it fixes,
and its marks where all is shown."""
from __future__ import annotations

from collections.abc import Iterator

from pertxogai.board.marks import marks
from pertxogai.board.protocol import Completed, Proposed
from pertxogai.completing import Completion, NoProposal, Proposal
from pertxogai.drawing import VALUED, Drawing, asked_of, value_text, words_of
from pertxogai.judging.measure import Solution
from pertxogai.output.picture.drawings import DrawnPlaces


def proposals_shown(drawing: Drawing, found: Completion | NoProposal,
                    shown: Solution | None) -> Completed:
    """What is proposed of a drawing, where all of it is shown; None for where it is drawn. Where
    nothing is, why."""
    if isinstance(found, NoProposal):
        return {"proposals": [], "why": found.why.value}
    return {"proposals": list(_shown(DrawnPlaces(drawing, shown), found)), "why": ""}


def _shown(where: DrawnPlaces, found: Completion) -> Iterator[Proposed]:
    for number, each in enumerate(found.all(), 1):
        words, value = _words(each)
        yield {"number": number, "line": each.line(), "words": words, "value": value,
               "fixes": list(each.fixes), "ties": each in found.datum,
               "marks": list(marks(where, number, each.constraint))}


def _words(proposal: Proposal) -> tuple[list[str], str | None]:
    """The words of a line without its value, and the value; None where it has none."""
    constraint = proposal.constraint
    if isinstance(constraint, VALUED):
        return list(asked_of(constraint)), value_text(constraint)
    return words_of(constraint).split(), None
