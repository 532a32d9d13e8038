"""The verdict in words: the lines of the panel beside the board, and what each of them selects."""
from __future__ import annotations

from collections.abc import Iterator, Sequence
from dataclasses import dataclass
from fractions import Fraction
from typing import assert_never, cast

from pertxogai.board.protocol import Line as LineJson
from pertxogai.drawing.numbers import mm_text
from pertxogai.judging import Excess, Judgement, Missing, Surplus, TooMuch, WeighedJudgement
from pertxogai.judging.choices import change
from pertxogai.judging.faults import Failure
from pertxogai.judging.finding import Finding, PlacesBy
from pertxogai.judging.good import Lack, reasons_against
from pertxogai.judging.judged_drawing import JudgedDrawing
from pertxogai.judging.measure import Unit, amount_text, units_text
from pertxogai.judging.naming import listed, quoted
from pertxogai.judging.states import InPieces, WithFault, WithPlaces, WithSurplus
from pertxogai.output.fault_text import fault_text
from pertxogai.output.finding_text import freedoms_text
from pertxogai.program import ProgramError

MOST_PIECES, MOST_JOINTS = 40, 20
"""The most pieces, and the most joints, that are told."""
ROUNDING_UM = Fraction(2, 1000)
"""Within what a repeat is isn't told where it is no more: places are whole nanometres."""


@dataclass(frozen=True)
class Line:
    """A line: how it is set, the list of this name that it stands in, what it selects, the
    constraint that it selects, or that it takes away, what of the file is told no longer once it is
    done, and the part whose colour it has."""

    text: str
    kind: str = ""
    list: str = ""
    selects: tuple[str, ...] = ()
    constraint: int | None = None
    takes: int | None = None
    forgets: str = ""
    part: int | None = None


@dataclass(frozen=True)
class Untold:
    """Why something of what is over can't be told, in one line."""

    why: str

    @staticmethod
    def by(error: ProgramError) -> Untold:
        """The program gave no answer."""
        return Untold(" ".join(str(error).split()))


@dataclass(frozen=True)
class Asides:
    """What is told beside a judgement. left: what is left out of what is over. unweighed: why what
    may go isn't measured, where that failed. short: by how much the dimensions beneath a fault
    miss each other, where that is known."""

    left: TooMuch | Untold = TooMuch(())
    unweighed: Untold | None = None
    short: str = ""


def lines_shown(judged: JudgedDrawing, asides: Asides = Asides()) -> list[LineJson]:
    """All lines, each with what it has."""
    lines = *_told(judged, asides), *_left_out(judged), *_notes(judged)
    return [cast(LineJson, {name: value for name, value in vars(line).items()
                            if value not in ("", (), None)}) for line in lines]


def _told(judged: JudgedDrawing, asides: Asides) -> Iterator[Line]:
    judgement = judged.judgement
    match judgement.state:
        case WithPlaces() as placed:
            return _well(judged, placed)
        case WithFault(failure):
            return _fault(judgement, failure, asides.short)
        case InPieces(missing):
            return _open(judged, missing)
        case WithSurplus():
            return _over(judged, asides)
        case other:
            assert_never(other)


def _well(judged: JudgedDrawing, placed: WithPlaces) -> Iterator[Line]:
    """Why it isn't good, if it isn't; and how exactly it is placed."""
    unmet = [each for each in reasons_against(judged) if each.lack is not Lack.LEFT_OUT]
    if unmet:
        yield Line("Fully constrained and placed, but not good:")
    for reason in unmet:
        yield Line(reason.text, list="what isn’t met", constraint=reason.constraint)
    yield from _choices(judged.judgement)
    within = (units_text(placed.length_nm, Unit.NM), units_text(placed.angle_ppb, Unit.PPB))
    is_just = not unmet and not judged.judgement.too_many
    count = "Fully constrained. " if is_just else ""
    yield Line(f"{count}Placed within {within[0]} and {within[1]}.")
    yield from _too_many(judged.judgement)
    yield from _not_tied(judged.judgement, "quiet")
    off = [each for each in judged.worst() if each.amount]
    for each in off:
        yield Line(f"measured: at most {amount_text(each)} off, "
                   f"{quoted(each.called(judged.drawing))}", "quiet")
    if not off:
        yield Line("measured: each constraint holds exactly", "quiet")


def _left_out(judged: JudgedDrawing) -> Iterator[Line]:
    """What the drawing's file has beside, as long as that isn't done."""
    if judged.not_drawn:
        yield Line("Left out of the file, because a drawing can’t express it:")
    for what in judged.not_drawn:
        yield Line(what, list="left out of the file", forgets=what)


def _open(judged: JudgedDrawing, found: Missing) -> Iterator[Line]:
    """What is missing, what is shown, its pieces, and what ties them."""
    judgement = judged.judgement
    yield Line("Under-constrained, or rigid in a way that the program doesn’t find.", "quiet")
    yield from _freedoms(judged)
    if found.count:
        missing = "dimensions are" if found.count > 1 else "dimension is"
        yield Line(f"At least {found.count} {missing} missing, by rank.")
    elif found.whole is not None and not found.whole.ways:
        yield Line("It isn’t built of triangles, so the program doesn’t find it fully "
                   "constrained.")
    yield from _not_tied(judgement, "quiet" if found.count else "")
    yield from _shown(judged, found)
    yield from _too_many(judgement)
    yield from _unmet(judged)
    yield from _contradicting(judged)
    for piece in found.pieces[:MOST_PIECES]:
        yield Line(f"cluster {piece.number}: {piece.text()}", list="pieces",
                   selects=piece.elements, part=piece.number)
    yield from _more(len(found.pieces) - MOST_PIECES, "pieces")
    for joint in found.joints[:MOST_JOINTS]:
        shared = f" share {' '.join(joint.shared)}" if joint.shared else ""
        yield Line(f"clusters {joint.first.number} and {joint.second.number}{shared}: "
                   f"{joint.text()}", list="what to do", selects=joint.shared)
    yield from _more(len(found.joints) - MOST_JOINTS, "what to do")


def _freedoms(judged: JudgedDrawing) -> Iterator[Line]:
    """How many degrees of freedom there are."""
    if judged.finding is not None and judged.finding.solution is not None:
        yield Line(f"{freedoms_text(judged.finding)}.", "freedoms")


def _shown(judged: JudgedDrawing, missing: Missing) -> Iterator[Line]:
    """Who says what of the shape that is shown."""
    finding = judged.finding
    if judged.not_searched:
        yield Line(f"Its rigid clusters are shown apart: {judged.not_searched}", "quiet")
    if finding is None or finding.solution is None:
        return
    off = [amount_text(each) for each in judged.worst() if each.amount]
    within = f"at most {' and '.join(off)} off" if off else "each constraint holds exactly"
    yield Line("The board shows a shape near the drawing that meets every constraint, "
               "placed by numbers.", "quiet")
    if finding.places_by is PlacesBy.PROGRAM:
        yield from _constructed(finding)
        yield Line(f"measured there: {within}", "quiet")
    else:
        yield Line(f"measured: {within}", "quiet")
    plural = "" if len(missing.pieces) == 1 else "s"
    yield Line(f"Certified by the program: {len(missing.pieces)} rigid cluster{plural}.", "quiet")


def _constructed(finding: Finding) -> Iterator[Line]:
    """That the program constructs what is open, once some values are chosen."""
    yield Line("The program constructs this shape, and certifies the constraints that it was "
               f"given, once these values are chosen: {', '.join(finding.chosen)}.", "certified")
    if finding.only_measured:
        yield Line(f"only measured, not given to it: {', '.join(finding.only_measured)}", "quiet")


def _too_many(judgement: Judgement) -> Iterator[Line]:
    """What is too many all the same of what isn't over."""
    yield from (Line(f"One of these is redundant or conflicting, by rank: {listed(each)}.")
                for each in judgement.too_many)


def _unmet(judged: JudgedDrawing) -> Iterator[Line]:
    """That no shape is found, and without what there is one."""
    unmet = judged.unmet()
    if unmet is not None:
        without = f" Without any one of these a shape is found: {listed(unmet)}." if unmet else ""
        yield Line("No shape with these values was found near the drawing, by numbers." + without)


def _contradicting(judged: JudgedDrawing) -> Iterator[Line]:
    """What can't all be met, and what may repeat or contradict, as far as the search tells."""
    finding = judged.finding
    if finding is not None:
        yield from (Line(f"These can’t all be met, by numbers: {listed(each)}.")
                    for each in finding.contradictions)
        yield from (Line(f"In doubt, redundant or conflicting, by numbers: {listed(each)}.")
                    for each in finding.in_doubt)


def _not_tied(judgement: Judgement, kind: str) -> Iterator[Line]:
    """How the whole may still be moved: where it is placed all the same, it lies as it is drawn."""
    if judgement.whole is not None and judgement.whole.ways:
        drawn = " It is placed as drawn." if judgement.solution is not None else ""
        yield Line("Not tied to the origin and the axes: the whole can still be "
                   f"{judgement.whole.text()}, by rank.{drawn}", kind)


def _more(count: int, which: str) -> Iterator[Line]:
    """That a list has so many lines more, which aren't told."""
    if count > 0:
        yield Line(f"and {count} more", "quiet", list=which)


def _over(judged: JudgedDrawing, asides: Asides) -> Iterator[Line]:
    """What is left out, and what becomes of the others; and what may go instead."""
    judgement, left = judged.judgement, asides.left
    listed = () if isinstance(left, Untold) else left.dimensions
    numbers = {each.number for each in listed if not each.in_part}
    others = [each for each in judgement.surplus if each.number not in numbers]
    yield Line(_head(left, bool(others)))
    alone = alone_of(judgement, listed)
    for each in listed:
        told = excess_told(each, rounded_of(judgement, each) or alone)
        yield Line(f"{each.name}: {told}", list="left out",
                   takes=None if each.in_part else each.number)
    if listed and others:
        yield Line("Or remove one of these instead:" if len(listed) == 1
                   else "Or remove one of these instead of one of those:")
    for other in others:
        rest = other.rest(judged.drawing)
        then = f"; without it the rest is {rest}" if rest else ""
        yield Line(f"{other.name}: {_surplus(other)}{then}", list="spare constraints",
                   takes=other.number)
    yield from _beside_over(judgement, left, asides.unweighed)


def _beside_over(judgement: Judgement, left: TooMuch | Untold,
                 unweighed: Untold | None) -> Iterator[Line]:
    """What is lacking all the same, and what of what is over can't be told."""
    for what in judgement.measured_off:
        yield Line(f"Over-constrained as measured, which isn’t certified: {what} can’t be encoded, "
                   "and the rest is enough.", "quiet")
    for what in judgement.loose if isinstance(judgement, WeighedJudgement) else ():
        yield Line(f"A dimension is missing all the same: {what}, by rank.")
    if unweighed is not None:
        yield Line(f"The removable dimensions can’t be measured: {unweighed.why}", "quiet")
    if isinstance(left, Untold):
        yield Line(f"The program gives no set to remove: {left.why}", "quiet")
    elif left.helps:
        yield Line("A construction line is redundant too.")


def _head(left: TooMuch | Untold, has_others: bool) -> str:
    """What the first list of what is over is."""
    if isinstance(left, TooMuch) and left.dimensions:
        return f"Over-constrained. {left.rest.value}"
    return ("Over-constrained. Remove one of these:" if has_others
            else "Over-constrained, and no dimension is found that can be removed by itself.")


def alone_of(judgement: Judgement, listed: Sequence[Excess]) -> Surplus | None:
    """The only dimension that is left out as one that may go by itself, if it is; None where
    several are left out, which are measured on other places than one that goes alone."""
    if len(listed) != 1:
        return None
    return next((each for each in judgement.surplus if each.number == listed[0].number), None)


def rounded_of(judgement: Judgement, left: Excess) -> Surplus | None:
    """A dimension that is left out as one that may go by itself, where rounding may be all by
    which it is off, or is: the program is told a near ratio of an angle."""
    return next((each for each in judgement.surplus if each.number == left.number
                 and (each.may_be_rounding() or left.conflicts and each.repeats())), None)


def excess_told(each: Excess, alone: Surplus | None = None) -> str:
    """What a dimension that is left out is: a repeat of the others, or a contradiction, by how
    much, and which way the others are off it, where that is known. alone: the same as one that may
    go by itself, if it is (`alone_of`)."""
    return "in part " * each.in_part + _excess(each, alone)


def _excess(each: Excess, alone: Surplus | None) -> str:
    if each.conflicts is None:
        return "redundant or conflicting; not measured"
    if alone is not None and alone.off is not None and alone.repeats() is not (not each.conflicts):
        return _surplus(alone)
    if not each.conflicts:
        return _repeat(each.off_um or Fraction(0))
    if each.off_um:
        way = "more" if each.off_um > 0 else "less"
        return f"conflicting by {_mm(each.off_um)}, the others give {way}"
    return _surplus(alone) if alone is not None and alone.repeats() is False else "conflicting"


def _repeat(off_um: Fraction) -> str:
    """A repeat, and within what, where that is more than rounding."""
    return "redundant" if abs(off_um) <= ROUNDING_UM else f"redundant, within {_mm(off_um)}"


def _mm(um: Fraction) -> str:
    return f"{mm_text(abs(um))}\u00a0mm"


def _surplus(each: Surplus) -> str:
    """What of a dimension that may go is known: a repeat, or a contradiction by how much."""
    if each.off is None:
        return "removable"
    off_um = Fraction(each.off.amount, 1000) if each.off.unit is Unit.NM else None
    if each.repeats():
        return _repeat(off_um or Fraction(0))
    by = amount_text(each.off) if off_um is None else _mm(off_um)
    if each.may_be_rounding():
        rounding = units_text(each.rounding, each.off.unit)
        return f"off by {by}, which rounding changes by up to {rounding}"
    return f"conflicting by {by}"


def _fault(judgement: Judgement, failure: Failure, short: str) -> Iterator[Line]:
    """What has no place, and why, and the dimensions beneath."""
    drawing = judgement.names.drawing
    yield Line("Fully constrained, but with these dimensions it can’t be placed the way it is "
               "drawn.")
    yield Line(fault_text(judgement, failure, short).replace("'", "’"))
    yield from _choices(judgement)
    if failure.dimensions:
        yield Line("Check these dimensions:")
    numbers = {drawing.called(number): number for number in range(1, len(drawing.constraints) + 1)}
    for name in failure.dimensions:
        yield Line(name, list="dimensions beneath the fault", constraint=numbers.get(name))
    yield from _too_many(judgement)


def _choices(judgement: Judgement) -> Iterator[Line]:
    """What comes of drawing it the other way round, where that was tried."""
    if not isinstance(judgement, WeighedJudgement):
        return
    tried, sketch = judgement.tried, judgement.asked.spelled.sketch
    if tried is None or tried.found is None and not tried.lists:
        return
    if tried.found is None:
        count = "all there are" if tried.whole else "not all"
        yield Line(f"No alternative solution meets them ({tried.lists} tried, {count}).", "quiet")
        return
    yield Line("It can be placed, and meets all of them, if you:")
    for step in tried.found.steps:
        yield Line(change(sketch, step, judgement.names.element), list="what to draw otherwise")


def _notes(judged: JudgedDrawing) -> Iterator[Line]:
    """What is to be known beside the verdict."""
    judgement = judged.judgement
    for warning in judged.warnings():
        yield Line(f"check: {warning.text()}", "warning", selects=warning.shapes)
    unsized = () if judgement.solution is not None else judgement.undimensioned
    for what, names in (
            ("not passed to the program", judgement.left_out),
            ("fixed at the drawn value", judgement.frozen),
            ("passed to the program with a rounded value", judgement.rounded),
            ("redundant, and removable", judgement.repeats),
            ("not passed to the program, but holds as measured", judgement.held),
            ("no size given, drawn radius kept", unsized),
            ("passed to the program with a value read off a placed cluster", judgement.grown)):
        yield from (Line(f"{what}: {name}", "note") for name in names)
