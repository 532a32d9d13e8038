"""What is told of a judged sketch, in lines to read."""
from __future__ import annotations

from collections.abc import Iterator, Mapping

from pertxogai.judging.choices import tried_lines
from pertxogai.judging.judged_sketch import JudgedSketch, concerned, what_to_do
from pertxogai.judging.measure import Unit, units_text
from pertxogai.output.verdict_text import verdict_text
from pertxogai.program.reports import (
    Cause, Fault, FrameFault, NumberFault, Off, OverPart, RangeFault, Spare, TurnedFault)

MOST_CONCERNED = 12
"""The most constraints of a fault that are listed."""


def sketch_lines(judged: JudgedSketch) -> Iterator[str]:
    """Everything that is reported of it, in lines to read; the first has the verdict."""
    check = judged.check
    yield (
        f"{judged.name}: {verdict_text(check.verdict)}, elements {check.elements}, constraints"
        f" {check.constraints}, rigid clusters {len(check.parts)}"
    )
    yield from _place_lines(judged)
    yield from _fault_lines(judged)
    if judged.parts:
        yield from (f"  {part.text().strip()}" for part in check.parts)
    if judged.excess:
        groups = judged.groups()
        for over in judged.excess.parts:
            yield from _over(over, groups)
    if judged.spare:
        yield "  what to do: remove any one of these, and judge again"
        yield from (f"    {it.text()}" for it in _picked_first(judged))
    elif judged.parts:
        yield ("  what to do: connect the rigid clusters: add a dimension between elements of two "
               "of them")


def _picked_first(judged: JudgedSketch) -> list[Spare]:
    """The removable constraints, those first that the program leaves out."""
    parts = judged.excess.parts if judged.excess else ()
    picked = {each.number for part in parts for each in part.left_out}
    return sorted(judged.spare, key=lambda each: each.number not in picked)


def _place_lines(judged: JudgedSketch) -> Iterator[str]:
    """Within what it is placed, and where each element lies."""
    if judged.solved:
        length = units_text(judged.solved.length_tolerance_nm, Unit.NM)
        angle = units_text(judged.solved.angle_tolerance_ppb, Unit.PPB)
        yield f"  placed within {length} and {angle}"
        yield from (f"  {placed.text()}" for placed in judged.solved.places)


def _fault_lines(judged: JudgedSketch) -> Iterator[str]:
    """What fails, the constraints that it is about, and what helps."""
    if judged.fault:
        yield f"  can't be placed as drawn ({_cause(judged.fault)}): {judged.fault.text().strip()}"
        constraints = concerned(judged)
        yield from (f"    of {each.text()}" for each in constraints[:MOST_CONCERNED])
        if len(constraints) > MOST_CONCERNED:
            yield f"    and of {len(constraints) - MOST_CONCERNED} more"
        yield from (f"  {line}" for line in tried_lines(judged.sketch, judged.tried))
        yield f"  what to do: {what_to_do(judged.fault, judged.tried, judged.by_points)}"


def _over(over: OverPart, groups: Mapping[int, tuple[int, ...]]) -> Iterator[str]:
    """What is left out of a part, from the last constraint on, how far off each is then, and
    against which others it is too many."""
    yield f"  redundant or conflicting in part {over.part.number}; {_rest(over)}:"
    yield from (f"    {each.text().strip()}{_gloss(each.off)}" for each in over.left_out)
    if over.fault:
        yield f"    {over.fault.text().strip()}"
    for each in over.left_out:
        if each.number in groups:
            because = ", ".join(f"c{number}" for number in groups[each.number])
            yield f"    c{each.number} follows from {because}"


def _rest(over: OverPart) -> str:
    """What becomes of the constraints of a part that are kept."""
    if over.stays_over():
        return "without these the others are still over-constrained"
    if over.fault:
        return "without these the program doesn't place the others"
    return "without these the others can be placed"


def _gloss(off: Off | None) -> str:
    """Whether a constraint is redundant, or by how much it conflicts; nothing where that isn't
    measured."""
    if off is None:
        return ""
    if not off.conflicts:
        return " (redundant)"
    if off.turned:
        return " (conflicting: flipped against the drawing)"
    amount = units_text(abs(off.amount), Unit(off.unit.value))
    return f" (conflicting: the others give {amount} {'more' if off.amount > 0 else 'less'})"


def _cause(fault: Fault) -> str:
    """The trade's word for why there are no coordinates."""
    match fault:
        case NumberFault(_, Cause.GAP):
            return "no real solution"
        case NumberFault():
            return "degenerate"
        case RangeFault() | FrameFault():
            return "out of range"
        case TurnedFault():
            return "flipped against the drawing"
        case _:
            return "beyond the limit"
