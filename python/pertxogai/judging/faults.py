"""Where a step has no places: which dimensions meet there, and by how much they miss each
other."""
from __future__ import annotations

from dataclasses import dataclass
from enum import Enum
from fractions import Fraction

from pertxogai.judging.deciding import deciding
from pertxogai.judging.decisive import decisive
from pertxogai.judging.naming import Names
from pertxogai.program.reports import (
    Cause, ConstraintFault, Fault, FrameFault, LineFault, NumberFault, Phase, Plan, RangeFault,
    StepAt, TurnedFault)

UNDER_A_ROOT = ("base", "height", "reach")
"""Roots of square millimetres."""
DIVIDED_BY_A_LENGTH = ("foot", "ex", "ey", "tilt")
"""Quotients by millimetres."""


class Unit(Enum):
    """What an amount is measured in."""

    SQUARE_MM = "mm²"
    MM = "mm"
    NONE = ""

    @property
    def power(self) -> int:
        """How often a length goes into it."""
        return 2 if self is Unit.SQUARE_MM else 1 if self is Unit.MM else 0


@dataclass(frozen=True)
class Amount:
    """The radicand or divisor of a failed step: between two ends."""

    low: Fraction
    high: Fraction
    unit: Unit


@dataclass(frozen=True)
class Failure:
    """The program's fault, complete, in the designer's names. dimensions: those behind the
    constraint that it names, or those that the construction uses at the step that it names, of
    which not each need decide; if points and segments of the drawing meet there, and nothing is
    redundant by rank, those that decide, by rank. at: the points and segments at which the step
    meets. amount: the number that failed. text: the program's own line, in the names of its sketch;
    `drawing_lines` of `pertxogai.output` say it in the designer's."""

    fault: Fault
    text: str
    dimensions: tuple[str, ...]
    at: tuple[str, ...]
    amount: Amount | None

    @property
    def is_flat(self) -> bool:
        """Whether the numbers don't tell on which side something lies."""
        return isinstance(self.fault, NumberFault) and self.fault.cause is Cause.FLAT


def failure(names: Names, fault: Fault, plan: Plan) -> Failure:
    """A fault told with the designer's names."""
    match fault:
        case NumberFault():
            low, high = fault.ends()
            unit = _unit(fault.at)
            size = names.spelled.scale ** unit.power
            return _of_step(names, fault, plan, fault.at.step,
                            Amount(low / size, high / size, unit))
        case RangeFault():
            return _of_step(names, fault, plan, fault.at.step, None)
        case FrameFault(_, element):
            return Failure(fault, _line(fault), (), names.elements([element]), None)
        case ConstraintFault(number):
            return Failure(fault, _line(fault), names.constraint(number), (), None)
        case LineFault(name):
            return Failure(fault, _line(fault), (), names.elements([name]), None)
        case TurnedFault(of):
            if of.is_step:
                return _of_step(names, fault, plan, of.number, None)
            return Failure(fault, _line(fault), names.constraint(of.number), (), None)


def _line(fault: Fault) -> str:
    """The program's line, without its line feed."""
    return fault.text().removesuffix("\n")


def _of_step(names: Names, fault: Fault, plan: Plan, step: int, amount: Amount | None) -> Failure:
    found = next(each for each in plan.steps if each.number == step)
    used = frozenset(owner for leaf in deciding(plan, step)
                     for owner in names.spelled.owners[leaf.number - 1])
    drawn = [each for each in map(names.drawn, found.at) if each is not None]
    owners = decisive(names.drawing, drawn, used) if len(drawn) == len(found.at) else used
    return Failure(fault, _line(fault), names.owners(owners), names.elements(found.at), amount)


def _unit(at: StepAt) -> Unit:
    """What the number is told in that was under a root, or divided."""
    if at.quantity in UNDER_A_ROOT or (at.phase is not Phase.BUILD
                                       and at.quantity in ("cos", "sin")):
        return Unit.SQUARE_MM
    return Unit.MM if at.quantity in DIVIDED_BY_A_LENGTH else Unit.NONE
