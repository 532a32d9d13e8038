"""Why a drawing with another number isn't as it was, in the designer's names."""
from __future__ import annotations

from collections.abc import Sequence
from dataclasses import dataclass
from enum import Enum
from fractions import Fraction
from typing import assert_never

from pertxogai.judging import Failure, Names
from pertxogai.judging.departures import Departure, DepartureKind, Warned
from pertxogai.judging.faults import Unit as AmountUnit
from pertxogai.judging.good import Lack, Reason, mirrored_text
from pertxogai.judging.measure import Deviation, Limit, Unit, amount_text, units_text
from pertxogai.judging.naming import quoted
from pertxogai.program.reports import (
    Cause, ConstraintFault, FrameFault, LineFault, NumberFault, RangeFault, StepAt, TurnedFault,
    Verdict)

MOST_ROUNDED = 10
"""What is off by more than so many times the limit isn't off by rounding."""
MOST_NAMED = 6
"""The most names, and the most warnings, that a reason tells."""

_GAPS = {"height": "the distances make no triangle", "reach": "the distance doesn't reach the line",
         "rise": "no line lies at these distances from both points"}
"""What it means that a number of this name has no root."""
_FLAT = {"height": "the triangle is flat", "base": "two points coincide",
         "base2": "two points coincide", "reach": "the distance only just reaches the line",
         "rise": "a line at these distances from both points only just exists",
         "det": "the lines don't cross", "x": "the lines don't cross", "y": "the lines don't cross"}
"""What it means that a number of this name can't be told from 0."""
_JUST_MM2 = Fraction(1, 10 ** 6)
"""Where what is under a root is below 0 by less, the dimensions miss each other by less than a
micrometre."""
_TOO_LARGE = "the numbers grow too large to compute with"


class FaultKind(Enum):
    """What ends a range; the values are for JSON and tests."""

    LIMIT = "limit"
    """The language takes no value beyond."""
    UNSOUND = "unsound"
    """A line of the drawing gets an invalid value, such as a length of 0."""
    VERDICT = "verdict"
    """The program's verdict isn't `well`."""
    NO_PLACES = "no places"
    """A step of the construction fails."""
    OFF = "off"
    """A constraint doesn't hold within the limit."""
    ROUNDING = "rounding"
    """Rounding puts a constraint off by more than two thirds of the limit, so that at one of the
    values beyond it may be off by more than all of it."""
    NO_LENGTH = "no length"
    """An edge shrinks to nothing, so that its direction isn't defined."""
    UNSIZED = "no size"
    """The positions don't give the size of a circle any more."""
    DEPARTURE = "departure"
    """Something is placed in another orientation than drawn: an edge reversed, a corner on the
    other side, edges or circles that cross, a point beyond the end of its edge; or two edges turn
    back on each other."""
    NOT_GOOD = "not good"
    """It isn't good for another reason, for example because a dimension is missing by rank."""


@dataclass(frozen=True)
class Fault:
    """Why a value isn't in the range: one line for the designer. by_rounding: whether a constraint
    is off by so little that it may be by rounding."""

    kind: FaultKind
    text: str
    by_rounding: bool = False


def of_warnings(warnings: Sequence[Warned]) -> Fault:
    """That edges come to nothing; else that something lies otherwise than it is drawn, or that
    edges turn back on each other."""
    gone = [name for each in warnings for name in each.shapes
            if isinstance(each, Departure) and each.departure is DepartureKind.GONE]
    if gone:
        return of_gone(gone)
    return Fault(FaultKind.DEPARTURE, _some("; ", [each.text() for each in warnings]))


def of_surplus(names: Sequence[str]) -> Fault:
    """That the program says over, and which constraints may go each by itself."""
    text = f"{of_verdict(Verdict.OVER).text}: remove one of {_constraints(names)}"
    return Fault(FaultKind.VERDICT, text)


def of_mirrored(names: Sequence[str]) -> Fault:
    """That each corner of something turns to the other side than it is drawn."""
    return Fault(FaultKind.DEPARTURE, mirrored_text(names))


def of_verdict(verdict: Verdict) -> Fault:
    """That the program says another verdict than well."""
    return Fault(FaultKind.VERDICT, f"it is {verdict.value} ({verdict.gloss})")


def of_failure(names: Names, failure: Failure) -> Fault:
    """That the program can't place something, or that it isn't placed as it has to be."""
    return Fault(FaultKind.NO_PLACES, _failure_text(names, failure))


def of_deviation(off: Deviation, called: str, limit: Limit) -> Fault:
    """That a constraint isn't met, or only just."""
    return Fault(FaultKind.OFF, f"{quoted(called)} is off by {amount_text(off)}",
                 off.amount <= MOST_ROUNDED * limit.amount)


def of_rounding(fault: Fault, at: str) -> Fault:
    """That rounding may put a constraint off by more than the limit. fault: how far one is off; at:
    the value at which it is, near the end of the range."""
    return Fault(FaultKind.ROUNDING,
                 f"rounding may break a constraint beyond: at {at} {fault.text} already")


def of_gone(names: Sequence[str]) -> Fault:
    """That edges come to nothing."""
    verb = "have" if len(names) > 1 else "has"
    return Fault(FaultKind.NO_LENGTH, f"{_some(' and ', names)} {verb} no length there")


def of_reason(reason: Reason) -> Fault:
    """That a drawing with another number isn't good, where each constraint holds."""
    kind = FaultKind.UNSIZED if reason.lack is Lack.NO_SIZE else FaultKind.NOT_GOOD
    return Fault(kind, reason.text)


def _failure_text(names: Names, failure: Failure) -> str:
    """What can't be placed, why, and by which constraints; or what isn't met."""
    match failure.fault:
        case NumberFault(at) | RangeFault(at):
            return f"{_made(names, at, failure)} can't be placed: {_cause(failure)}"
        case FrameFault():
            return f"{_where(failure)} can't be placed: {_cause(failure)}"
        case ConstraintFault(_, tolerance, unit, limit):
            scale = names.spelled.scale if unit.value == Unit.NM.value else 1
            met, most = (units_text(-(-each // scale), Unit(unit.value))
                         for each in (tolerance, limit))
            return f"{_named(failure)} is met only within {met}, not {most}"
        case LineFault(_, tolerance, limit):
            return (f"the direction of {_where(failure)} is met only within "
                    f"{units_text(tolerance, Unit.PPB)}, not {units_text(limit, Unit.PPB)}")
        case TurnedFault(of):
            return f"{_where(failure) if of.is_step else _named(failure)} would lie mirrored"
        case other:
            assert_never(other)


def _made(names: Names, at: StepAt, failure: Failure) -> str:
    """What a step constructs: where that is a construction line, with what it meets."""
    met = f" at {_some(', ', failure.at)}" if failure.at else ""
    return names.element(at.element) or f"a construction line{met}"


def _where(failure: Failure) -> str:
    """The points and segments of a failure."""
    return _some(", ", failure.at) or "a construction line"


def _named(failure: Failure) -> str:
    """The constraints of a failure."""
    return _constraints(failure.dimensions) or "a constraint of a construction line"


def _cause(failure: Failure) -> str:
    """Why something can't be placed, with the program's words for it, and by which constraints."""
    beneath = f", by {_constraints(failure.dimensions)}" if failure.dimensions else ""
    match failure.fault:
        case NumberFault(at, cause):
            words = (_FLAT if cause is Cause.FLAT or _is_just(failure) else _GAPS).get(at.quantity)
            said = f"step {at.step}, {at.quantity} {cause.value}"
            return (f"{words} ({said})" if words else said) + beneath
        case RangeFault(at):
            return f"{_TOO_LARGE} (step {at.step}, {at.quantity} range){beneath}"
        case _:
            return f"{_TOO_LARGE}{beneath}"


def _is_just(failure: Failure) -> bool:
    """Whether the dimensions meet but for less than a micrometre."""
    amount = failure.amount
    return (amount is not None and amount.unit is AmountUnit.SQUARE_MM
            and amount.high > -_JUST_MM2)


def _constraints(names: Sequence[str]) -> str:
    """Constraints by their names, the first of them."""
    return _some(", ", [*map(quoted, names)])


def _some(between: str, texts: Sequence[str]) -> str:
    more = len(texts) - MOST_NAMED
    return between.join(texts[:MOST_NAMED]) + (f" and {more} more" if more > 0 else "")
