"""Drawings with tolerances by chance: such as the hunt makes, and what its points must keep of each
other; and whether corners by chance lie within the worst case that `fit` tells. Each corner is
placed by the program anew; each tenth one is besides written, read and judged as a drawing of its
own, and measured there by the tests' own formulas."""
from __future__ import annotations

from collections.abc import Iterator, Sequence
from dataclasses import dataclass, replace
from fractions import Fraction
from functools import partial
from random import Random

from hunt.making import Kind, NotMade, made
from pertxogai.drawing import (
    VALUED, AngleBetween, Drawing, DrawingRefusal, Segment, Tolerance, Valued, read_drawing,
    write_drawing)
from pertxogai.fitting import CheckedFit, Fit, NoFit, fit
from pertxogai.fitting.gauges import Gauge
from pertxogai.fitting.offs import Offs
from pertxogai.fitting.placing import Placer, Unplaced
from pertxogai.fitting.toleranced import Dimensions, Toleranced, moved
from pertxogai.judging import Judgement, Question
from pertxogai.judging.edited import EditedDrawing
from pertxogai.judging.judgement import judge_edited, judge_trial
from pertxogai.judging.measure import Limit
from pertxogai.judging.remembering import Remembering
from pertxogai.judging.trials import finer
from pertxogai.program import Solver
from plain_gauges import Plain

MOST_BLOCKS = 3
EACH_ANEW = 10
"""One in this number of corners is measured in a drawing of its own."""
GOALS = 2
"""For this number of the least and the greatest of the checks the search goes on."""
ROUNDING = 3
"""In millionths: what two ways to measure the same places may differ by."""
WHOLE = 360_000_000
"""A whole turn, in millionths of a degree."""


def toleranced(seed: int) -> Drawing | None:
    """The drawing of a seed, of up to one, two or three blocks in turn, with a tolerance for each
    dimension and two checks or more; None where none is made, or it has no three points."""
    try:
        drawing = read_drawing(made(seed, Kind.COMPLETE, 1 + seed % MOST_BLOCKS).text)
    except NotMade:
        return None
    random = Random(seed)
    said = tuple(_with_tolerance(each, random) if isinstance(each, VALUED) else each
                 for each in drawing.constraints)
    points = list(dict.fromkeys(map(drawing.meetings.leader, drawing.points())))
    if len(points) < 3:
        return None
    one, other, third = random.sample(points, 3)
    text = write_drawing(replace(drawing, constraints=said))
    lines = [f"check Apart distance {one} {other} 0 ..",
             f"check Aside {random.choice('xy')} {one} {third} -1 .. +1",
             *_checks_of_segments(drawing, f"{third}", random)]
    return read_drawing("\n".join([text, *filter(partial(_is_read, text), lines), ""]))


def _checks_of_segments(drawing: Drawing, point: str, random: Random) -> Iterator[str]:
    """What may be checked of segments, where it has two."""
    segments = [each.name for each in drawing.geometry if isinstance(each, Segment)]
    if len(segments) > 1:
        first, second = random.sample(segments, 2)
        yield f"check Long length {first} 0 .."
        yield f"check Beside distance {point} {second} 0 .."
        yield f"check Turn angle {first} {second} -400deg .. +400deg"


def _is_read(text: str, line: str) -> bool:
    """Whether a check can be asked for: none is asked of a point that lies on the segment."""
    try:
        read_drawing(f"{text}{line}\n")
    except DrawingRefusal:
        return False
    return True


def _with_tolerance(dimension: Valued, random: Random) -> Valued:
    """A dimension that may lie off by up to a degree, or by 0.3 mm and a twentieth of itself: to
    both sides, or to one alone."""
    if isinstance(dimension, AngleBetween):
        off, unit, mark = Fraction(random.randint(1, 100), 100), Fraction(1), "deg"
    else:
        most_um = min(300, int(abs(dimension.value_um) / 20))
        off, unit, mark = Fraction(random.randint(1, max(most_um, 1))), Fraction(1, 1000), ""
    text = f"{float(off * unit)}{mark}"
    below, above, written = random.choice((
        (off, off, f"+-{text}"), (off, off, f"+-{text}"), (Fraction(0), off, f"+{text}-0{mark}"),
        (off, -off / 2, f"-{float(off * unit / 2)}{mark}-{text}")))
    return replace(dimension, tolerance=Tolerance(below, above, written))


@dataclass(frozen=True)
class Tried:
    """What came of one drawing. wrong: what of its checks was told wrongly: those said to be
    monotone that have a corner outside of their worst case, those said to fit, or reckoned by
    numbers, that have one outside of what is reckoned, with how far that is, in millionths; and
    corners that are measured otherwise by other formulas. anew: how many were measured so."""

    is_known: bool
    corners: int = 0
    monotone: int = 0
    checks: int = 0
    wrong: tuple[str, ...] = ()
    anew: int = 0


def tried(seed: int, corners: int, program: Solver) -> Tried | None:
    """What comes of the drawing of a seed at that number of corners; None where there is none.
    Nothing is known where most of a few first ones have no places."""
    drawing = toleranced(seed)
    if drawing is None:
        return None
    random, program = Random(seed), Remembering(program)  # Some corners are asked for again.
    if not _has_corners(drawing, program, random):
        return Tried(False)
    found = fit(drawing, program)
    if isinstance(found, NoFit) or not found.known:
        return Tried(False)
    search = _Search(found, program, random)
    search.try_corners(corners)
    monotone = sum(each.worst.is_one_way for each in found.known)
    return Tried(True, search.placed, monotone, len(found.known), tuple(search.wrong), search.anew)


def _has_corners(drawing: Drawing, program: Solver, random: Random) -> bool:
    """Whether a drawing is placed as it is given, and at two of three corners by chance."""
    placer = Placer(drawing, program, Limit())
    if placer.nominal.solution is None:
        return False
    dimensions = Dimensions.of(drawing, placer.nominal.solution).toleranced
    placer.begin(dimensions, ())
    one, other, third = (_corner(dimensions, random) for _ in range(3))
    is_placed = placer.is_placed(one)
    return is_placed if placer.is_placed(other) == is_placed else placer.is_placed(third)


def _corner(dimensions: Sequence[Toleranced], random: Random) -> Offs:
    """A corner by chance."""
    return Offs(random.choice((-each.below, each.above)) for each in dimensions)


class _Search:
    """Corners by chance, and from the worst of them for some checks on to worse ones, one dimension
    after the other: as who wants to prove the told worst case wrong."""

    def __init__(self, found: Fit, program: Solver, random: Random) -> None:
        self._found, self._program, self._random = found, program, random
        self._dimensions = found.dimensions.toleranced
        self._placer = Placer(found.drawing, program, Limit())
        solution = found.good.solution
        gauges = [Gauge.of(each.check, found.drawing, solution) for each in found.known]
        self._gauges = [gauge for each in gauges for gauge in each]
        self._placer.begin(self._dimensions, self._gauges)
        self._plain = _signed(found)
        self.wrong: dict[str, None] = {}
        self.anew = 0

    @property
    def placed(self) -> int:
        """How many corners had places."""
        return len(self._placer.cases)

    def try_corners(self, count: int) -> None:
        """That number by chance, and then for the least or the greatest of a few checks as many as
        there are dimensions."""
        chance = [_corner(self._dimensions, self._random) for _ in range(count)]
        known = [offs for offs in chance if self._values(offs) is not None]
        for offs in dict.fromkeys(known[::EACH_ANEW]):
            self._try_anew(offs)
        goals = [(number, side) for number in range(len(self._found.known)) for side in (-1, 1)]
        for number, side in self._random.sample(goals, min(GOALS, len(goals))) if known else ():
            self._climb(known, number, side)

    def _climb(self, known: list[Offs], number: int, side: int) -> None:
        def worth(offs: Offs) -> int | None:
            values = self._values(offs)
            return None if values is None else side * values[number]

        best = max(known, key=lambda offs: worth(offs) or 0)
        for place in self._random.sample(range(len(best)), len(best)):
            each = self._dimensions[place]
            off = each.above if best[place] == -each.below else -each.below
            other = best.replaced({place: off})
            there, here = worth(other), worth(best)
            if there is not None and here is not None and there > here:
                best = other

    def _values(self, offs: Offs) -> tuple[int, ...] | None:
        """What is measured there, looked at; None where nothing is placed."""
        try:
            case = self._placer.case(offs)
        except Unplaced:
            return None
        for each, value in zip(self._found.known, case.values):
            told = each.placed if each.worst.is_one_way else each.reckoned
            off = max(told.least - value, value - told.greatest)
            if off > each.noise:
                self.wrong[f"{each.check.line()}: {value} is {off} outside of {told.least} .. "
                           f"{told.greatest}"] = None
        return case.values

    def _try_anew(self, offs: Offs) -> None:
        """Compares what was measured with what is in a drawing of its own, which is rounded
        otherwise; and there with what other formulas say."""
        self.anew += 1
        by_number = {each.number: off for each, off in zip(self._dimensions, offs)}
        drawing = read_drawing(write_drawing(moved(self._found.drawing, by_number)))
        solution = _finest(drawing, self._program).solution
        values = self._values(offs)
        assert solution is not None and values is not None, drawing
        plain = Plain(drawing, solution)
        for each, gauge, value in zip(self._found.known, self._gauges, values):
            here, there = gauge.measured(solution), plain.measured(each.check)
            there *= self._plain[each.check.name]
            if _off(each, here, there) > ROUNDING or _off(each, here, value) > each.noise:
                self.wrong[f"{each.check.line()}: {value} is {here}, or {there}, anew"] = None


def _finest(drawing: Drawing, program: Solver) -> Judgement:
    """A drawing judged by itself, with its angles told finely. `judge` may leave an angle at a near
    ratio, some parts in 10^8 off, where no constraint is further off by that; but what is checked
    may be, by more than its rounding."""
    edited, question = EditedDrawing(drawing), Question(drawing, program)
    judged = judge_edited(edited, program)
    return judge_trial(edited, finer(question, judged.asked), question)


def _off(found: CheckedFit, one: float, other: float) -> float:
    """How far two values of a check are apart, in millionths, but for whole turns."""
    off = abs(one - other)
    return min(off % WHOLE, -off % WHOLE) if found.check.is_angle else off


def _signed(found: Fit) -> dict[str, int]:
    """By the name of each check 1, or -1 where without a sign it counts as more than 0 what is less
    by the formulas of the tests."""
    plain = Plain(found.drawing, found.good.solution)
    return {each.check.name: -1 if not each.check.is_signed
            and plain.measured(each.check) * each.nominal < 0 else 1 for each in found.known}
