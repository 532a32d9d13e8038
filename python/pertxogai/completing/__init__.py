"""What would complete a drawing: the missing dimensions as a designer would give them, in the
drawing's own words, and the relations that it nearly has. What is free, and what a line would fix,
is found by numbers (`pertxogai.search`). Whether the completed drawing is fully constrained and
placed, the program says, and nothing is proposed without that. Nothing here imports numpy before it
is used."""
from __future__ import annotations

from pertxogai.completing.proposal import (
    MOST_SECONDS, Completion, NoProposal, Proposal, WhyNot)
from pertxogai.drawing import Drawing
from pertxogai.judging.finding import Nearly
from pertxogai.judging.measure import Limit
from pertxogai.program import Solver
from pertxogai.search import check_libraries

__all__ = ["Completion", "NoProposal", "Proposal", "WhyNot", "complete", "lines_to_add",
           "nearly"]


def complete(drawing: Drawing, program: Solver, limit: Limit = Limit(),
             seconds: float = MOST_SECONDS) -> Completion | NoProposal:
    """The dimensions that a sound drawing lacks, as a designer would give them; or why none are
    proposed. Nothing more is tried once this many seconds of processor time are spent, by default
    20. Raises MissingLibrary without numpy or scipy, and the exceptions of `judge`."""
    found = _without_fixes(drawing, program, limit, seconds)
    if isinstance(found, NoProposal):
        return found
    from pertxogai.completing.fixes import with_fixes
    return with_fixes(drawing, found)


def lines_to_add(drawing: Drawing, program: Solver, limit: Limit = Limit(),
                 seconds: float = MOST_SECONDS) -> tuple[str, ...]:
    """The lines of what `complete` proposes; none where nothing is. What each line fixes isn't
    asked, which takes longest of a drawing that lacks hundreds. Raises as `complete`."""
    found = _without_fixes(drawing, program, limit, seconds)
    return tuple(each.line() for each in found.all()) if isinstance(found, Completion) else ()


def _without_fixes(drawing: Drawing, program: Solver, limit: Limit,
                   seconds: float) -> Completion | NoProposal:
    check_libraries()
    from pertxogai.completing.completion import completion_of
    return completion_of(drawing, program, limit, seconds)


def nearly(drawing: Drawing) -> tuple[Nearly, ...]:
    """The relations that a sound drawing nearly has where the search places it, and that don't
    follow from its constraints; none if no positions are found. Raises MissingLibrary."""
    check_libraries()
    from pertxogai.completing.near_relations import nearly_of
    return tuple(nearly_of(drawing))
