"""The range of one value or dimension, and the steps to which its ends are told."""
from __future__ import annotations

from dataclasses import dataclass
from fractions import Fraction

from pertxogai.drawing import Drawing, DrawingUnsound, Parameter, Unit
from pertxogai.ranging.faults import Fault, FaultKind

STEPS = {Unit.MM: 1_000, Unit.PLAIN: 1_000, Unit.DEGREES: 10_000}
"""Ends are told to so many parts of the unit: to a micrometre, to a ten-thousandth of a degree."""
MOST_STEPS = 10 ** 9
"""A small value without a unit is told to a thousandth of it, and to no smaller part of one."""


@dataclass(frozen=True)
class End:
    """An end of a range: the last value with which the drawing stays good, in the unit of the
    parameter, and why the next one doesn't; or one before which rounding breaks nothing."""

    at: Fraction
    fault: Fault


@dataclass(frozen=True)
class Range:
    """How far a value or a dimension can go. tried: how many values were tried. is_clear: whether
    by numbers nothing crosses between them."""

    of: Parameter
    low: End
    high: End
    tried: int
    is_clear: bool

    @property
    def step(self) -> Fraction:
        """The step to which the ends are given, in the unit."""
        return Fraction(1, steps_of(self.of))


def steps_of(of: Parameter) -> int:
    """Into how many steps the unit of a parameter is parted."""
    steps = STEPS[of.unit]
    while of.unit is Unit.PLAIN and 0 < abs(of.present) * steps < 1_000 and steps < MOST_STEPS:
        steps *= 10
    return steps


def with_number(drawing: Drawing, of: Parameter, number: Fraction) -> Drawing | Fault:
    """A drawing with another value for a parameter, in its unit, or why there is none."""
    try:
        return of.on(drawing, number)
    except DrawingUnsound as unsound:
        return Fault(FaultKind.UNSOUND, str(unsound))
