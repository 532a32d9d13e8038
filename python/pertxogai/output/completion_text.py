"""What is told of a drawing that was completed: lines to read, and one object for JSON."""
from __future__ import annotations

from collections.abc import Iterator, Sequence

from pertxogai.completing import Completion, NoProposal, Proposal, WhyNot
from pertxogai.drawing import line_of
from pertxogai.judging.measure import Unit, amount_text, greatest
from pertxogai.program.called import COMMAND

MOST_FIXED = 4
"""The most things that are told of what a line fixes."""


def completion_lines(name: str, found: Completion | NoProposal,
                     left_out: Sequence[str] = ()) -> Iterator[str]:
    """What is proposed of a drawing of that name, or why nothing is, in lines to read. left_out:
    what of its file the drawing can't say."""
    if isinstance(found, Completion):
        yield from _proposal_lines(name, found)
    else:
        yield f"{name}: {found.verdict.value}: {found.why.value}{_but_not_good(found)}"
    yield from (f"  left out of the file: {what}" for what in left_out)


def _proposal_lines(name: str, found: Completion) -> Iterator[str]:
    yield (f"{name}: {_count(len(tuple(found.all())), 'line')} to add, and what each fixes "
           "(by numbers)")
    yield from (f"  {each.line()}{_fixes(each)}{_drawn(each)}" for each in found.proposals)
    if found.datum:
        yield "  to tie the whole to the origin and the axes:"
    yield from (f"  {each.line()}{_fixes(each)}" for each in found.datum)
    if not found.ties_the_whole:
        yield ("  nothing was found that ties it to the origin and the axes: the whole can still "
               "be moved")
    off = (greatest(found.judged.judgement.deviations, unit) for unit in Unit)
    most = [amount_text(each) for each in off if each is not None and each.amount]
    within = f"each constraint within {' and '.join(most)}" if most else "each constraint exactly"
    yield f"  with these it is well and placed, and meets {within}"


def _but_not_good(found: NoProposal) -> str:
    """That what lacks nothing isn't good all the same."""
    if found.why is WhyNot.NOTHING and not found.is_good:
        return f", but it isn't good: see {COMMAND} judge"
    return ""


def _fixes(proposal: Proposal) -> str:
    """What a line fixes, by numbers."""
    if not proposal.fixes:
        return ""
    more = len(proposal.fixes) - MOST_FIXED
    return f"   fixes {', '.join(proposal.fixes[:MOST_FIXED])}{f' and {more} more' * (more > 0)}"


def _drawn(proposal: Proposal) -> str:
    """How it is drawn, where that isn't proposed."""
    return "" if proposal.drawn is None else f"; drawn: {line_of(proposal.drawn)}"


def _count(number: int, what: str) -> str:
    return f"{number} {what}{'' if number == 1 else 's'}"


def completion_json(name: str, found: Completion | NoProposal,
                    left_out: Sequence[str] = ()) -> dict[str, object]:
    """The same as one object for JSON. lines: all that is to be added, what ties the whole last;
    fixes: of each, in their order, by numbers; datum: those that tie the whole; why: where there
    are none. verdict, placed and good: of the drawing with them."""
    if isinstance(found, NoProposal):
        return {"name": name, "lines": [], "verdict": found.verdict.value,
                "placed": found.is_placed, "good": is_whole(found, left_out), "fixes": [],
                "datum": [], "why": found.why.value, "left_out": list(left_out)}
    return {"name": name, "lines": _lines(tuple(found.all())),
            "verdict": found.judged.judgement.verdict.value, "placed": True,
            "good": is_whole(found, left_out), "fixes": [list(it.fixes) for it in found.all()],
            "datum": _lines(found.datum), "why": None, "left_out": list(left_out)}


def _lines(proposals: Sequence[Proposal]) -> list[str]:
    return [each.line() for each in proposals]


def is_whole(found: Completion | NoProposal, left_out: Sequence[str] = ()) -> bool:
    """Whether a drawing is good with what is proposed, and says all that its file has."""
    return not left_out and (isinstance(found, Completion) or found.is_good)
