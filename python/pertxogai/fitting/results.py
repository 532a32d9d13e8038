"""The results of the checks of a drawing."""
from __future__ import annotations

from dataclasses import dataclass
from enum import Enum
from fractions import Fraction
from functools import cached_property

from pertxogai.drawing import Drawing
from pertxogai.drawing.tolerances.check import Check
from pertxogai.fitting.corners import Worst
from pertxogai.fitting.toleranced import MILLIONTHS, Dimensions, Toleranced
from pertxogai.judging import GoodJudgement

Limits = tuple[Fraction | None, Fraction | None]
"""A lower and an upper limit, in millionths of a millimetre or a degree; None where there is
none."""


class Answer(Enum):
    """Whether something fits in the worst case; the values are for JSON."""

    FITS = True
    """Each placed case lies within the limits; if the check isn't monotone, so does the range that
    is calculated from the effects of single dimensions."""
    UNSURE = None
    """Each placed case lies within the limits, but another case may not."""
    BEYOND = False
    """A placed case lies beyond a limit."""


@dataclass(frozen=True)
class Share:
    """What one dimension contributes to a check. gives: how much to either side, in millionths of a
    millimetre or a degree. part: its share of the worst case, from 0 to 1. part_of_squares: its
    share of the sum of squares. per_unit: the change of the check for a millimetre or a degree of
    the dimension; None if the check isn't monotone in it."""

    dimension: Toleranced
    gives: int
    per_unit: float | None
    part: float
    part_of_squares: float


@dataclass(frozen=True)
class Range:
    """From least to greatest, in millionths of a millimetre or a degree."""

    least: int
    greatest: int

    def lies_within(self, limits: Limits, noise: int) -> bool:
        """Whether all of it lies between two limits; what is beyond a limit only by the rounding of
        positions counts as at the limit. noise: that rounding."""
        low, high = limits
        return ((low is None or self.least >= low - noise)
                and (high is None or self.greatest <= high + noise))


@dataclass(frozen=True)
class CheckedFit:
    """The result of one check, in millionths of a millimetre or a degree. A check may be measured
    in several places, such as both ends of a segment. numbers: the indices of these
    measurements among all of the drawing, from 0; gauged: the worst case of each. low, high: the
    limits as written. nominal: the least value with nominal dimensions. by_squares: the range by
    the root sum square; None if the check isn't monotone in a dimension that contributes much, if
    the dimensions change it more together than each by itself, or if one of two segments tilts:
    tilts says that. shares: the dimensions that contribute, the largest contribution
    first. dimensions: all that have a tolerance. noise: the rounding of what is measured.
    tightened: the tolerance, in micrometres or degrees, to which the dimension of the first share
    has to be tightened; None if that alone isn't enough, or if its tolerance isn't the same to both
    sides. The program has placed the part with it. has_gap: whether a part within tolerance can't
    be placed, by dimensions that affect the check."""

    check: Check
    numbers: tuple[int, ...]
    low: Fraction | None
    high: Fraction | None
    nominal: int
    gauged: tuple[Worst, ...]
    by_squares: Range | None
    shares: tuple[Share, ...]
    dimensions: tuple[Toleranced, ...]
    noise: int
    tightened: Fraction | None = None
    has_gap: bool = False
    tilts: bool = False

    @cached_property
    def worst(self) -> Worst:
        """The worst case of all of its gauges."""
        return Worst.of(self.gauged)

    @property
    def allowed(self) -> Limits:
        """The limits that count. An angle without a sign is one of 0 to 180 degrees, whichever way
        it turns: where it has a limit on one side alone, that holds beyond 0 or 180 too."""
        low, high = self.low, self.high
        if not self.check.is_angle or self.check.is_signed:
            return low, high
        half = 180 * MILLIONTHS
        is_below, is_above = low is not None and low > 0, high is not None and high != half
        return (low if is_below else -high if high is not None and is_above else None,
                high if is_above else 2 * half - low if low is not None and is_below else None)

    @property
    def moving(self) -> frozenset[int]:
        """The dimensions that move the check, by their places from 0."""
        giving = {share.dimension for share in self.shares if share.gives > self.noise}
        return self.worst.turning.union(place for place, each in enumerate(self.dimensions)
                                        if each in giving)

    @property
    def placed(self) -> Range:
        """The range of the measured cases, from the least to the greatest value."""
        return Range(self.worst.least, self.worst.greatest)

    @property
    def reckoned(self) -> Range:
        """The range that the check may reach: `placed`, and if the check isn't monotone also what
        is calculated from the effects of single dimensions."""
        worst = self.worst
        return Range(worst.least - worst.below, worst.greatest + worst.above)

    @property
    def turning_numbers(self) -> tuple[int, ...]:
        """The places, from 1, of the constraints in which the check isn't monotone."""
        return tuple(self.dimensions[place].number for place in sorted(self.worst.turning))

    @property
    def answer(self) -> Answer:
        """Whether it fits in the worst case; where a check has no limits, whether that is known."""
        if not self.placed.lies_within(self.allowed, self.noise):
            return Answer.BEYOND
        if self.has_gap or not self.reckoned.lies_within(self.allowed, self.noise):
            return Answer.UNSURE
        return Answer.FITS

    @property
    def fits_by_squares(self) -> bool:
        """Whether the root sum square lies within the limits; false if there is none."""
        return self.by_squares is not None and self.by_squares.lies_within(self.allowed, self.noise)


@dataclass(frozen=True)
class UnknownFit:
    """A check about which nothing is known. why: the reason, in one line."""

    check: Check
    why: str

    @property
    def answer(self) -> Answer:
        """It isn't known whether it fits."""
        return Answer.UNSURE


@dataclass(frozen=True)
class Fit:
    """The results of all checks of a good drawing. placements: how many cases were placed and
    measured. unplaced: the cases that can't be placed, and why. between: those that can't, although
    the cases on both sides of them can. loose_nm: how far a constraint is off in a case, at most; 0
    if that is only rounding."""

    good: GoodJudgement
    dimensions: Dimensions
    checks: tuple[CheckedFit | UnknownFit, ...]
    placements: int
    unplaced: tuple[str, ...] = ()
    between: tuple[str, ...] = ()
    loose_nm: int = 0

    @property
    def drawing(self) -> Drawing:
        """The drawing that was checked."""
        return self.good.drawing

    @property
    def known(self) -> tuple[CheckedFit, ...]:
        """The checks of which something is known."""
        return tuple(each for each in self.checks if isinstance(each, CheckedFit))

    @property
    def idle(self) -> tuple[Toleranced, ...]:
        """The dimensions whose tolerance by itself has no effect on any check; none if a check
        isn't known, since it may have one on that."""
        if len(self.known) < len(self.checks):
            return ()
        giving = {share.dimension.number for each in self.known for share in each.shares}
        return tuple(each for each in self.dimensions.toleranced if each.number not in giving)

    @property
    def answer(self) -> Answer:
        """Whether all checks fit in the worst case; that isn't known where a case can't be
        placed."""
        answers = {each.answer for each in self.checks}
        if self.unplaced:
            answers.add(Answer.UNSURE)
        return next((each for each in (Answer.BEYOND, Answer.UNSURE) if each in answers),
                    Answer.FITS)


@dataclass(frozen=True)
class NoFit:
    """Nothing is known about the checks. why: the reasons, one line each."""

    why: tuple[str, ...]
