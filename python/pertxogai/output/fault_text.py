"""The program's fault in words, by the designer's names: what can't be placed, and why."""
from __future__ import annotations

from collections.abc import Sequence
from typing import assert_never

from pertxogai.judging.faults import Amount, Failure
from pertxogai.judging.judgement import Judgement
from pertxogai.judging.measure import Unit, units_text
from pertxogai.judging.naming import listed
from pertxogai.program.reports import (
    Cause, ConstraintFault, FrameFault, LineFault, NumberFault, RangeFault, TurnedFault)

BEYOND = "grow too large to compute with. Check whether a value is mistyped by a power of ten"


def fault_text(judgement: Judgement, failure: Failure, short: str) -> str:
    """What can't be placed, and why, in a sentence or two. short: by how much the dimensions miss
    each other, where that is known."""
    match failure.fault:
        case NumberFault(at, cause):
            return _unmet(judgement.names.element(at.element), failure.at, cause, short)
        case RangeFault(at):
            made = judgement.names.element(at.element) or "a construction line"
            return f"The numbers that place {made} {BEYOND}."
        case FrameFault():
            return f"The numbers that place the part {BEYOND}, or draw it nearer to 0 0."
        case ConstraintFault(_, tolerance, unit, limit):
            met = _told(judgement, tolerance, unit.value), _told(judgement, limit, unit.value)
            return f"{_named(failure)} is met only within {met[0]}; the limit is {met[1]}."
        case LineFault(_, tolerance, limit):
            met = units_text(tolerance, Unit.PPB), units_text(limit, Unit.PPB)
            of_what = ", ".join(failure.at) or "a construction line"
            return f"The direction of {of_what} is met only within {met[0]}; the limit is {met[1]}."
        case TurnedFault(of):
            what = f"What meets at {', '.join(failure.at)}" if of.is_step else _named(failure)
            return f"{what} would lie mirrored against the drawing."
        case other:
            assert_never(other)


def _unmet(made: str | None, at: Sequence[str], cause: Cause, short: str) -> str:
    """What is constructed can't be placed by its dimensions, or can't be told from flat."""
    has_none = f"{made} can't be placed" if made else f"Nothing can be placed at {', '.join(at)}"
    if cause is Cause.FLAT:
        return f"{has_none}: on which side it lies can't be decided. {short}".strip()
    return f"{has_none}. {short}" if short else f"{has_none}: the dimensions don't meet there."


def number_text(failure: Failure) -> str:
    """The number that fails, and where; nothing where it is a tolerance or a sign, which the fault
    in words tells."""
    match failure.fault:
        case NumberFault(at) if failure.amount is not None:
            return f"the program computes {at.quantity} in step s{at.step} from a number between " \
                   f"{_ends(failure.amount)}"
        case RangeFault(at):
            return f"in step s{at.step} the program computes {at.quantity}, beyond the grid"
        case FrameFault(quantity):
            return f"the program computes {quantity} of the frame, beyond the grid"
    return ""


def _ends(amount: Amount) -> str:
    """The two ends of an amount, with its unit."""
    return f"{float(amount.low):.6g} and {float(amount.high):.6g} {amount.unit.value}".strip()


def _named(failure: Failure) -> str:
    """The dimensions of a fault that is about one."""
    return listed(failure.dimensions) or "a construction line"


def _told(judgement: Judgement, amount: int, unit: str) -> str:
    """A tolerance of the sketch, as one of the drawing."""
    scale = judgement.asked.spelled.scale if unit == "nm" else 1
    return units_text(-(-amount // scale), Unit(unit))
