"""What tolerances do to what must fit: of each check the worst case, the root of the sum of
squares, and which dimension gives how much."""
from __future__ import annotations

from collections.abc import Iterator, Sequence
from contextlib import closing
from dataclasses import replace
from fractions import Fraction
from math import sqrt

from pertxogai.drawing import Check, Drawing
from pertxogai.fitting.corners import Corners, Worst
from pertxogai.fitting.effects import Effect, effects
from pertxogai.fitting.floating import why_floating
from pertxogai.fitting.gauges import Gauge, NotMeasured
from pertxogai.fitting.placing import Placer, Unplaced
from pertxogai.fitting.results import (
    CheckedFit, Fit, Limits, NoFit, Range, Share, UnknownFit)
from pertxogai.fitting.tightening import tightened
from pertxogai.fitting.toleranced import MILLIONTHS, Dimensions, Toleranced
from pertxogai.judging import GoodJudgement, JudgedDrawing, NotGood, good_of
from pertxogai.judging.measure import Limit
from pertxogai.program import Solver

Gauges = tuple[Gauge, ...]
"""Those of one check."""
Checks = tuple[CheckedFit | UnknownFit, ...]
MOST_PASSES = 4
"""All checks are worked out at most this number of times."""
LITTLE = Fraction(1, 100)
"""Of the sum of the squares, or of the worst case: what is no more may be passed over."""
ALIKE = 100
"""In millionths: what dimensions give is told as finely."""


def fit_of(drawing: Drawing, program: Solver, limit: Limit, jobs: int) -> Fit | NoFit:
    """What tolerances do to a sound drawing. Raises ProgramError, DrawingRefused, Refusal and
    NotHeld as `judge` does."""
    if not drawing.tolerancing.checks:
        return NoFit(("there is no check: add a line such as check Gap distance P S 2 .. 2.5",))
    with closing(Placer(drawing, program, limit, jobs)) as placer:
        return _fit_placed(drawing, placer, limit)


def _fit_placed(drawing: Drawing, placer: Placer, limit: Limit) -> Fit | NoFit:
    """The same, where cases are placed by this."""
    good = good_of(JudgedDrawing("", drawing, placer.nominal, limit=limit))
    if isinstance(good, NotGood):
        return NoFit(tuple(f"with nominal dimensions it isn't good: {each.text}"
                           for each in good.reasons))
    dimensions = Dimensions.of(drawing, good.solution)
    gauges = [_gauges(each, good) for each in drawing.tolerancing.checks]
    placer.begin(dimensions.toleranced, [gauge for each in gauges if not
                                         isinstance(each, UnknownFit) for gauge in each])
    try:
        placer.as_given()
        placer.base()
    except Unplaced as why:
        return NoFit((str(why),))
    checks = _all_checks(placer, dimensions.toleranced, gauges)
    return Fit(good, dimensions, checks, len(placer.cases), placer.unplaced, placer.between,
               placer.loose_nm)


def _all_checks(placer: Placer, dimensions: Sequence[Toleranced],
                gauges: Sequence[Gauges | UnknownFit]) -> Checks:
    """What comes of all checks: once more as long as what was placed for one is worse for
    another."""
    for _ in range(MOST_PASSES):
        checks = _with_gaps(placer, tuple(_checks(placer, dimensions, gauges)))
        if not _are_exceeded(placer, checks):
            break
    return checks


def _are_exceeded(placer: Placer, checks: Checks) -> bool:
    """Whether a check is worse in a case that was placed than in its worst case."""
    return any(case.values[number] < each.worst.least - each.noise
               or case.values[number] > each.worst.greatest + each.noise
               for each in checks if isinstance(each, CheckedFit)
               for number in each.numbers for case in placer.within.values())


def _with_gaps(placer: Placer, checks: Checks) -> Checks:
    """The same, each with whether a part that matters to it can't be placed. What is tried to find
    that out may be one more such part."""
    tried = 0
    while tried != placer.tried:
        tried = placer.tried
        checks = tuple(each if isinstance(each, UnknownFit)
                       else replace(each, has_gap=placer.has_gap(each.moving)) for each in checks)
    return checks


def _gauges(check: Check, good: GoodJudgement) -> Gauges | UnknownFit:
    floating = why_floating(check, good.judged.judgement)
    if floating is not None:
        return UnknownFit(check, floating)
    try:
        return Gauge.of(check, good.drawing, good.solution)
    except NotMeasured as why:
        return UnknownFit(check, str(why))


def _checks(placer: Placer, dimensions: Sequence[Toleranced],
            gauges: Sequence[Gauges | UnknownFit]) -> Iterator[CheckedFit | UnknownFit]:
    number = 0
    for each in gauges:
        if isinstance(each, UnknownFit):
            yield each
            continue
        numbers = tuple(range(number, number + len(each)))
        yield _checked(placer, dimensions, numbers, each[0])
        number += len(each)


def _checked(placer: Placer, dimensions: Sequence[Toleranced], numbers: tuple[int, ...],
             gauge: Gauge) -> CheckedFit | UnknownFit:
    """What comes of one check. numbers: the places of its gauges, from 0; gauge: the first."""
    try:
        moved = [effects(placer, dimensions, number) for number in numbers]
        gauged = tuple(Corners(placer, each, number).worst()
                       for each, number in zip(moved, numbers))
    except Unplaced as why:
        return UnknownFit(gauge.check, str(why))
    given, base = placer.as_given().values, placer.base().values
    tilts = placer.tilts(numbers)
    squares = None if tilts else _by_squares(base[numbers[0]], moved[0], Worst.of(gauged))
    low, high = _limits(gauge)
    nominal = min(given[number] for number in numbers)
    told = CheckedFit(gauge.check, numbers, low, high, nominal, gauged, squares,
                      _shares([_most(each) for each in zip(*moved)]), tuple(dimensions),
                      gauge.noise, tilts=tilts)
    try:
        return replace(told, tightened=tightened(placer, told))
    except Unplaced:
        return told


def _most(of_gauges: Sequence[Effect]) -> Effect:
    """Of what one dimension does to several gauges of a check the most."""
    return max(of_gauges, key=lambda each: each.gives())


def _limits(gauge: Gauge) -> Limits:
    """The limits of a check as they are written."""
    unit = MILLIONTHS if gauge.check.is_angle else MILLIONTHS // 1000
    low, high = (None if each is None else each * unit
                 for each in gauge.check.limits(gauge.drawing.scene.values))
    return low, high


def _by_squares(base: int, moved: Sequence[Effect], worst: Worst) -> Range | None:
    """None where what isn't monotone gives more than a little of the squares, since a check that
    turns round has no middle to both sides of which it lies; or where the dimensions give more than
    a little only together."""
    squares = sum(each.gives() ** 2 for each in moved)
    reach = sum(2 * each.gives() for each in moved)
    turning = sum(moved[place].gives() ** 2 for place in worst.turning)
    most = (worst.greatest - worst.least) * (1 - LITTLE)
    if turning > squares * LITTLE or most > reach + max((each.noise for each in moved), default=0):
        return None
    middle = base + sum(each.middle() - base for each in moved)
    return Range(round(float(middle) - sqrt(squares)), round(float(middle) + sqrt(squares)))


def _shares(moved: Sequence[Effect]) -> tuple[Share, ...]:
    """What each gives, the greatest first; in the order of the drawing where they give as much."""
    whole = sum(each.gives() for each in moved)
    squares = sum(each.gives() ** 2 for each in moved)
    found = [Share(each.dimension, each.gives(), each.per_unit(), each.gives() / whole,
                   each.gives() ** 2 / squares) for each in moved if each.gives() > 1]
    return tuple(sorted(found, key=lambda share: -round(share.gives / ALIKE)))
