"""To what the dimension that gives most has to be tightened, where it alone is enough."""
from __future__ import annotations

from dataclasses import dataclass
from fractions import Fraction

from pertxogai.fitting.offs import Offs
from pertxogai.fitting.placing import Placer
from pertxogai.fitting.results import Answer, CheckedFit, Range

STEP_UM = Fraction(1)
"""How finely it is told of a length."""
STEP_DEGREES = Fraction(1, 1000)
"""How finely it is told of an angle."""


def tightened(placer: Placer, told: CheckedFit) -> Fraction | None:
    """The tolerance to both sides with which it is enough, in micrometres or degrees; None where
    none is, or where the check isn't monotone. Raises Unplaced and ProgramError."""
    first = told.shares[0].dimension if told.shares else None
    if (first is None or told.answer is not Answer.BEYOND or told.worst.turning
            or first.below != first.above):
        return None
    step = STEP_DEGREES if first.is_angle else STEP_UM
    one = _One(placer, told, told.dimensions.index(first))
    steps = _most(one, first.above, step)
    return steps * step if steps else None


@dataclass(frozen=True)
class _One:
    """One check with one dimension tightened, by its place from 0."""

    placer: Placer
    told: CheckedFit
    place: int

    def worst(self, off: Fraction) -> Range:
        """The worst case with another tolerance. Raises Unplaced."""
        values = [self.placer.case(self._with(offs, off)).values[number]
                  for number, worst in zip(self.told.numbers, self.told.gauged)
                  for offs in (worst.at_least, worst.at_greatest)]
        return Range(min(values), max(values))

    def fits(self, off: Fraction) -> bool:
        """Whether it fits with another tolerance. Raises Unplaced."""
        return self.worst(off).lies_within(self.told.allowed, self.told.noise)

    def _with(self, offs: Offs, off: Fraction) -> Offs:
        return offs.replaced({self.place: off if offs[self.place] > 0 else -off})


def _most(one: _One, whole: Fraction, step: Fraction) -> int:
    """The greatest number of steps with which it fits, 0 where none is: begun where a straight line
    between nothing and the whole tolerance leads to, then found by halving."""
    if not one.fits(Fraction(0)):
        return 0
    low, high = 0, int(whole / step)
    guess = _guess(one, whole, step)
    for steps in (guess, guess + 1):
        if low < steps < high:
            low, high = (steps, high) if one.fits(steps * step) else (low, steps)
    while high - low > 1:
        middle = (low + high) // 2
        low, high = (middle, high) if one.fits(middle * step) else (low, middle)
    return low


def _guess(one: _One, whole: Fraction, step: Fraction) -> int:
    """At how many steps a straight line reaches the first limit."""
    none, all_of_it, told = one.worst(Fraction(0)), one.worst(whole), one.told
    parts = [Fraction(1)]
    low, high = told.allowed
    if low is not None and all_of_it.least < none.least:
        parts.append((none.least - low) / (none.least - all_of_it.least))
    if high is not None and all_of_it.greatest > none.greatest:
        parts.append((high - none.greatest) / (all_of_it.greatest - none.greatest))
    return max(0, int(min(parts) * whole / step))
