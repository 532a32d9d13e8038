"""Whether a judgement is good, so that a part may be cut by it: one type, which can be made of no
other.

What is well and placed, and of which each constraint holds as it is measured, is good; what isn't
has the reasons why. The exit status, the page, the JSON, the pictures, the files that are written
and the add-on of FreeCAD ask this, and nothing else."""

from __future__ import annotations

from collections.abc import Collection, Iterator, Sequence
from dataclasses import dataclass
from enum import Enum
from typing import TYPE_CHECKING, TypedDict

from pertxogai.cached import cached_on
from pertxogai.drawing import ORIGIN, Drawing
from pertxogai.judging.mirrored import mirrored
from pertxogai.judging.judged_drawing import JudgedDrawing
from pertxogai.judging.measure.deviation import Deviation, Unit
from pertxogai.judging.measure.limit import amount_text, units_text
from pertxogai.judging.measure.measuring import Measurement
from pertxogai.judging.measure.solution import MissingPlace, Solution
from pertxogai.judging.naming import quoted
from pertxogai.judging.settled import settled
from pertxogai.judging.trials import Trial
from pertxogai.language import (
    Circle, Element, Line, Placed, PlacedCircle, PlacedLine, PlacedPoint, Point, Sketch)
from pertxogai.program.reports import CheckReport, Solved, Verdict
from pertxogai.spelling.facts import ORIGIN_KNOT, Knot

if TYPE_CHECKING:  # A drawing is good or not without what is told of sketches.
    from pertxogai.judging.judged_sketch import JudgedSketch

MOST_NAMED = 4
"""The most edges of what lies mirrored that are named."""


class Lack(Enum):
    """Why a judgement isn't good; the values are for JSON."""

    VERDICT = "verdict"
    """The program's verdict isn't `well`."""
    NO_PLACES = "no places"
    """It is well, and has no places."""
    EMPTY = "empty"
    """Nothing is drawn."""
    LEFT_OUT = "left out"
    """The drawing can't say something that its file has."""
    UNMEASURED = "unmeasured"
    """A point that a constraint speaks of has no place."""
    OFF = "off"
    """A constraint doesn't hold within the limit."""
    NO_SIZE = "no size"
    """Nothing tells the size of a circle."""
    MISSING = "missing"
    """Dimensions are missing by rank, though the program says well of how it was spelled."""
    MIRRORED = "mirrored"
    """All corners of something turn to the other side than they are drawn."""
    NOT_PRINTED = "not printed"
    """What is said of it isn't what the program has printed of this drawing."""


@dataclass(frozen=True)
class Reason:
    """One thing for which a judgement isn't good, in a line; the place of the constraint that it
    is about, from 1, and how far that is off, where it is about one."""

    lack: Lack
    text: str
    constraint: int | None = None
    off: Deviation | None = None


class NotGood(Exception):
    """A judgement isn't good. The message is one line."""

    def __init__(self, reasons: tuple[Reason, ...]) -> None:
        super().__init__("; ".join(each.text for each in reasons))
        self.reasons = reasons


@dataclass(frozen=True)
class GoodJudgement:
    """A good judgement on a drawing. The program says `well` and places it; every point lies where
    the program printed it; every constraint of the designer, and everything that the shapes imply,
    is measured within the limit; nothing of the file is left out; every size is given; by rank no
    dimension is known to be missing (the rank of a large drawing isn't counted); and no figure of
    it, as `judging.mirrored` distinguishes them, is mirrored at each of its corners, unless the
    constraints determine one. A part of an outline that is mirrored between two of its corners
    isn't found. Making one of anything else raises NotGood."""

    judged: JudgedDrawing

    def __post_init__(self) -> None:
        reasons = _against(self.judged)
        if reasons:
            raise NotGood(reasons)

    @property
    def drawing(self) -> Drawing:
        """The drawing that was judged."""
        return self.judged.drawing

    @property
    def solution(self) -> Solution:
        """The solved position, in whole nanometres in the coordinates of the datum."""
        assert self.judged.judgement.solution is not None
        return self.judged.judgement.solution


@dataclass(frozen=True)
class GoodSketch:
    """A good judgement on a sketch of the language. The program says `well`, with these numbers of
    elements and constraints; it printed a position for each element; and every constraint is
    measured there within the limit, as the program says too. Making one of anything else raises
    NotGood."""

    judged: JudgedSketch

    def __post_init__(self) -> None:
        reasons = _against_sketch(self.judged)
        if reasons:
            raise NotGood(reasons)

    @property
    def solved(self) -> Solved:
        """The solved position."""
        assert self.judged.solved is not None
        return self.judged.solved


def good_of(judged: JudgedDrawing) -> GoodJudgement | NotGood:
    """The judgement as a good one, or why it isn't good."""
    try:
        return GoodJudgement(judged)
    except NotGood as why:
        return why


def good_sketch_of(judged: JudgedSketch) -> GoodSketch | NotGood:
    """The judged sketch as a good one, or why it isn't good."""
    try:
        return GoodSketch(judged)
    except NotGood as why:
        return why


def reasons_against(judged: JudgedDrawing | JudgedSketch) -> tuple[Reason, ...]:
    """Why a judgement isn't good; nothing if it is."""
    found = good_of(judged) if isinstance(judged, JudgedDrawing) else good_sketch_of(judged)
    return found.reasons if isinstance(found, NotGood) else ()


class ReasonJson(TypedDict):
    """A reason, as JSON. off, unit: how far the constraint is off, of what isn't met."""

    why: str
    text: str
    constraint: int | None
    off: int | None
    unit: str | None


class ReasonsJson(TypedDict):
    """Whether a judgement is good, and why not."""

    good: bool
    why_not: list[ReasonJson]


def reasons_json(judged: JudgedDrawing | JudgedSketch) -> ReasonsJson:
    """Whether a judgement is good, and why not, for JSON."""
    reasons = reasons_against(judged)
    return {"good": not reasons, "why_not": [_json(each) for each in reasons]}


def _json(reason: Reason) -> ReasonJson:
    off = reason.off
    return {"why": reason.lack.value, "text": reason.text, "constraint": reason.constraint,
            "off": off.amount if off else None, "unit": off.unit.value if off else None}


@cached_on
def _against(judged: JudgedDrawing) -> tuple[Reason, ...]:
    """Why the judgement on a drawing isn't good. What no constraint tells is looked at where
    nothing else is against it."""
    found, solution = tuple(_plain_reasons(judged)), judged.judgement.solution
    if found or solution is None:
        return found
    return tuple(_missing_or_mirrored(judged, solution))


def _missing_or_mirrored(judged: JudgedDrawing, solution: Solution) -> Iterator[Reason]:
    """What a measure of the constraints doesn't see: that dimensions are missing, by rank, and that
    something lies mirrored."""
    free = judged.judgement.free
    if free is not None and free.lacks:
        yield Reason(Lack.MISSING, missing_text(free.lacks))
    for names in mirrored(judged.drawing, solution):
        yield Reason(Lack.MIRRORED, mirrored_text(names))


def missing_text(count: int) -> str:
    """That at least so many dimensions are missing: one line for the designer."""
    plural = "dimension is" if count == 1 else "dimensions are"
    return f"at least {count} {plural} missing, by rank"


def mirrored_text(names: Sequence[str]) -> str:
    """That something lies mirrored, by the names of its edges: one line for the designer."""
    more = f" and {len(names) - MOST_NAMED} more" if len(names) > MOST_NAMED else ""
    return (f"{', '.join(names[:MOST_NAMED])}{more} lie mirrored: each corner turns the other way "
            "than it is drawn")


def _plain_reasons(judged: JudgedDrawing) -> Iterator[Reason]:
    """What the program, the file and the measure say against it."""
    if not judged.drawing.geometry:
        yield Reason(Lack.EMPTY, "nothing is drawn that could be judged")
    judgement = judged.judgement
    if (judgement.names.drawing != judged.drawing
            or judgement.verdict is not judgement.asked.verdict):
        yield Reason(Lack.NOT_PRINTED, "the judgement is of another drawing")
        return
    solved = judgement.asked.solved
    yield from _without_places(judgement.verdict, solved, judgement.solution is not None)
    for what in judged.not_drawn:
        yield Reason(Lack.LEFT_OUT, f"left out of the file: {what}")
    if judgement.solution is not None and isinstance(solved, Solved):
        yield from _not_printed(judged, judgement.solution, solved)
        yield from _constraints_off(judged, judgement.solution)


def _not_printed(judged: JudgedDrawing, solution: Solution, solved: Solved) -> Iterator[Reason]:
    """What isn't where the program has printed it; and the circles of which nothing tells the
    size."""
    asked = judged.judgement.asked
    printed = {each.name for each in solved.places}
    lost = [ref for ref, knot in asked.axes.facts.refs.items()
            if ref != ORIGIN and not _is_printed(asked, knot, printed)]
    yield from (Reason(Lack.NOT_PRINTED, f"the program has printed no position of {ref}")
                for ref in lost)
    if lost:
        return
    found = settled(judged.drawing, asked, solved)
    if found.solution != solution:
        yield Reason(Lack.NOT_PRINTED, "the positions aren't those that the program has printed")
    for name in found.unsized:
        yield Reason(Lack.NO_SIZE, f"no size is given for {name}")


def _is_printed(asked: Trial, knot: Knot, printed: Collection[str]) -> bool:
    """Whether a point's place is printed: itself, or of the origin both axes, which meet there."""
    if asked.spelled.points.get(knot) in printed:
        return True
    axes = {each.rail.upwards for each in asked.spelled.headings
            if each.rail is not None and each.rail.datum() and each.name in printed}
    return knot == ORIGIN_KNOT and len(axes) == 2


def _without_places(verdict: Verdict, solved: object, placed: bool) -> Iterator[Reason]:
    if verdict is not Verdict.WELL:
        yield Reason(Lack.VERDICT, f"it is {verdict.value}")
    elif not isinstance(solved, Solved) or not placed:
        yield Reason(Lack.NO_PLACES, "it can't be placed as drawn")


def _constraints_off(judged: JudgedDrawing, solution: Solution) -> Iterator[Reason]:
    """The constraints that don't hold on the places, lengths before directions, and those that are
    off most first. They are measured here, unless the judgement's measurement is of these very
    places: what one says was measured."""
    drawing, known = judged.drawing, judged.judgement.measurement
    measurement = Measurement(drawing, solution)
    try:
        deviations = known.all if known == measurement and known else measurement.all
    except MissingPlace as missing:
        yield Reason(Lack.UNMEASURED, str(missing))
        return
    for each in sorted(judged.limit.beyond(deviations), key=_order):
        text = f"{quoted(each.called(drawing))} is off by {amount_text(each)}"
        yield Reason(Lack.OFF, text, each.number, each)


def _order(off: Deviation) -> tuple[bool, int]:
    return off.unit is Unit.PPB, -off.amount


@cached_on
def _against_sketch(judged: JudgedSketch) -> tuple[Reason, ...]:
    """Why a judged sketch isn't good."""
    return tuple(_reasons_of_sketch(judged))


def _reasons_of_sketch(judged: JudgedSketch) -> Iterator[Reason]:
    """These reasons, one by one."""
    solved, most = judged.solved, judged.limit.amount
    yield from _without_places(judged.check.verdict, solved, solved is not None)
    if not _is_of(judged.check, judged.sketch) or solved and not _places(solved, judged.sketch):
        yield Reason(Lack.NOT_PRINTED, "the program's answer is of another sketch")
    elif solved:
        from pertxogai.judging.measure.sketches import sketch_tolerances

        length, angle = sketch_tolerances(judged.sketch, solved.places)
        length = max(length, solved.length_tolerance_nm)
        angle = max(angle, solved.angle_tolerance_ppb)
        if max(length, angle) > most:
            yield Reason(Lack.OFF, f"it is placed only within {units_text(length, Unit.NM)} and "
                         f"{units_text(angle, Unit.PPB)}")


def _is_of(check: CheckReport, sketch: Sketch) -> bool:
    """Whether a report counts what a sketch has."""
    counts = len(sketch.elements), len(sketch.constraints)
    return (check.elements, check.constraints) == counts


def _places(solved: Solved, sketch: Sketch) -> bool:
    """Whether places are those of a sketch's elements, each of its kind, and each circle as
    large."""
    return [*map(_element, solved.places)] == [*map(_element, sketch.elements)]


def _element(each: Element | Placed) -> tuple[str, str, int]:
    """An element by its kind, its name, and a circle's radius in nanometres, which is a dimension
    and exact; 0 of the others."""
    match each:
        case Point(name) | PlacedPoint(name):
            return "point", name, 0
        case Line(name) | PlacedLine(name):
            return "line", name, 0
        case Circle(name, radius_um=radius_um):
            return "circle", name, 1000 * radius_um
        case PlacedCircle(name, radius_nm=radius_nm):
            return "circle", name, radius_nm
