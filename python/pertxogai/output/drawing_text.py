"""What is told of a judged drawing, in lines to read."""
from __future__ import annotations

from collections.abc import Iterator, Sequence
from typing import TYPE_CHECKING

from pertxogai.judging.good import Lack, reasons_against
from pertxogai.judging.judged_drawing import CountedDrawing, JudgedDrawing
from pertxogai.judging.measure import Unit, amount_text
from pertxogai.judging.measure.limit import units_text
from pertxogai.judging.naming import listed, quoted, with_words
from pertxogai.judging.states import WithPlaces
from pertxogai.output.values_text import values_lines
from pertxogai.output.verdict_text import verdict_text
from pertxogai.program.called import COMMAND

if TYPE_CHECKING:  # What isn't well, or isn't met, imports what is told of it alone.
    from pertxogai.judging.judgement import CountedJudgement, Judgement
    from pertxogai.judging.surplus import Surplus

UNMET = Lack.OFF, Lack.UNMEASURED, Lack.NOT_PRINTED, Lack.MISSING, Lack.MIRRORED
"""For what of a placed drawing a line says that it isn't good; all else has a line of its own."""
MOST_ADVICE = 5
"""The most pairs of pieces for which it is told what to do."""
ADVICE = {
    Lack.LEFT_OUT: "draw what was left out with shapes and constraints that are read",
    Lack.OFF: "correct what is off, or draw it nearer to the shape that you want",
    Lack.NO_SIZE: "add a radius or a diameter, or judge with --freeze",
    Lack.MISSING: f"add a dimension: {COMMAND} complete proposes some",
    Lack.MIRRORED: "draw it the way round that you want, or change a dimension",
}
"""What to do where a drawing is placed and isn't good."""
BY_TRIANGLES = "dimension it by triangles, so that the program finds it fully constrained"
BY_CHOSEN = "give the chosen values as dimensions, in place of what isn't passed to the program"
"""What to do with what is open, and lacks no dimension by rank."""
FOLLOWS = {True: "follows from", False: "conflicts with",
           None: "follows from, or conflicts with"}
"""How a removable dimension stands to the others of its group."""


def drawing_lines(judged: CountedDrawing) -> Iterator[str]:
    """Everything that is reported of it, in lines to read; the first has the verdict."""
    yield _headline(judged)
    if not judged.drawing.geometry:
        yield "  nothing is drawn that could be judged"
    yield from (f"  not good: {reason.text}" for reason in reasons_against(judged)
                if reason.lack in UNMET)
    yield from _asked_lines(judged)
    yield from _places_lines(judged)
    yield from _open_lines(judged)
    yield from _unmet_lines(judged)
    yield from _surplus_lines(judged)
    yield from (f"  check: {warning.text()}" for warning in judged.warnings())
    yield from _nearly_lines(judged)
    if judged.stored is not None:
        from pertxogai.output.stored_text import stored_lines

        yield from stored_lines(judged.stored, judged.drawing)


def _headline(judged: CountedDrawing) -> str:
    """The verdict, and what is counted."""
    judgement, check = judged.judgement, judged.judgement.asked.check
    freedoms = ""
    if judged.finding is not None:
        from pertxogai.output.finding_text import freedoms_text

        freedoms = f", {freedoms_text(judged.finding)}"
    return (f"{judged.name}: {verdict_text(judgement.verdict)}{freedoms}, "
            f"encoding {judgement.style.value}, elements {check.elements}, "
            f"constraints {check.constraints}, rigid clusters {len(check.parts)}")


def _asked_lines(judged: CountedDrawing) -> Iterator[str]:
    """What the values are, and what of the drawing the program wasn't told as it is said."""
    judgement = judged.judgement
    yield from values_lines(judged.drawing)
    yield from _tried_lines(judgement)
    yield from (f"  left out of the file: {what}" for what in judged.not_drawn)
    yield from _left_out_lines(judgement)
    yield from (f"  doesn't constrain the sketch: {what}" for what in judged.aside)
    yield from (f"  fixed at the drawn value, and measured: {quoted(what)}"
                for what in judgement.frozen)
    yield from (f"  passed to the program with a rounded value: {quoted(what)}"
                for what in judgement.rounded)
    yield from _repeats_lines(judged)
    yield from (f"  not passed to the program, but holds as measured: {quoted(what)}"
                for what in judgement.held)
    yield from (f"  no size given for {what}: drawn radius kept" for what in
                judgement.undimensioned)


def _repeats_lines(judged: CountedDrawing) -> Iterator[str]:
    """What says only what others say, and which others, where the search has found these."""
    groups = judged.finding.groups_of(judged.judgement.repeats) if judged.finding else {}
    for name in judged.judgement.repeats:
        others = [each for each in groups.get(name, ()) if each != name]
        given = f", given {listed(others)} (by numbers)" if others else ""
        yield f"  redundant, and removable: {quoted(name)}{given}"


def _places_lines(judged: CountedDrawing) -> Iterator[str]:
    """Where it is placed, and why it isn't."""
    yield from _placed_lines(judged)
    yield from _advice_on_lacks(judged)
    yield from _finding_lines(judged)
    yield from _failure_lines(judged)


def _finding_lines(judged: CountedDrawing) -> Iterator[str]:
    """What the search has found, or why it wasn't made."""
    if judged.finding is not None or judged.not_searched:
        from pertxogai.output.finding_text import finding_lines

        yield from finding_lines(judged)


def _open_lines(judged: CountedDrawing) -> Iterator[str]:
    """What is missing, and what would complete it."""
    judgement = judged.judgement
    yield from _lacks_lines(judgement)
    yield from _whole_lines(judgement)
    yield from (f"  one of these is redundant or conflicting (by rank): {listed(each)}"
                for each in judgement.too_many)
    yield from _missing_lines(judged)
    yield from _proposed_lines(judged)


def _tried_lines(judgement: CountedJudgement) -> Iterator[str]:
    """What came of other choices, where the drawing is placed and a constraint isn't met."""
    if judgement.solution is not None and judgement.tried is not None:
        from pertxogai.judging.choices import tried_lines

        sketch, named = judgement.asked.spelled.sketch, judgement.names.element
        yield from (f"  {line}" for line in tried_lines(
            sketch, judgement.tried, named, "no alternative solution meets all of it"))


def _left_out_lines(judgement: Judgement) -> Iterator[str]:
    """What couldn't be spelled, and doesn't hold all the same."""
    for each in judgement.left_out_measured:
        if each.off is None:
            yield f"  not passed to the program: {quoted(each.name)}"
        elif not each.holds():
            yield (f"  not passed to the program, and off as measured: {quoted(each.name)}, "
                   f"by {amount_text(each.off)}")


def _placed_lines(judged: JudgedDrawing) -> Iterator[str]:
    """Within what it is placed, and what is off most."""
    placed = judged.judgement.state
    if not isinstance(placed, WithPlaces):
        return
    yield (f"  placed within {units_text(placed.length_nm, Unit.NM)} and "
           f"{units_text(placed.angle_ppb, Unit.PPB)}")
    off = [each for each in judged.worst() if each.amount]
    for each in off:
        yield f"  measured: at most {amount_text(each)} off, {quoted(each.called(judged.drawing))}"
    if not off:
        yield "  measured: each constraint holds exactly"


def _failure_lines(judged: CountedDrawing) -> Iterator[str]:
    """The program's fault with the designer's names."""
    judgement, failure = judged.judgement, judged.judgement.failure
    if failure is None:
        return
    from pertxogai.judging.choices import tried_lines
    from pertxogai.output.fault_text import fault_text, number_text

    told = fault_text(judgement, failure, judged.short).replace("\u00a0", " ")
    yield f"  can't be placed as drawn: {told}"
    if failure.at:
        at = ", ".join(failure.at)
        yield f"    where {at} meet" if len(failure.at) > 1 else f"    at {at}"
    if number := number_text(failure):
        yield f"    {number}"
    sketch, named = judgement.asked.spelled.sketch, judgement.names.element
    yield from (f"  {line}" for line in tried_lines(
        sketch, judgement.tried, named,
        "no alternative solution of the steps beneath meets all of it"))
    if failure.dimensions and not judgement.unmet:
        yield f"  what to do: check and correct {listed(failure.dimensions)}"


def _lacks_lines(judgement: Judgement) -> Iterator[str]:
    """How many dimensions an open drawing lacks."""
    if judgement.missing is not None and judgement.missing.count:
        count = judgement.missing.count
        missing = "dimensions are" if count > 1 else "dimension is"
        yield f"  at least {count} {missing} missing (by rank)"


def _whole_lines(judgement: Judgement) -> Iterator[str]:
    """How the whole may still be moved: where it is placed all the same, it lies as it is drawn."""
    if judgement.whole is not None and judgement.whole.ways:
        drawn = "; it is placed as drawn" if judgement.solution is not None else ""
        yield ("  not tied to the origin and the axes: the whole can still be "
               f"{judgement.whole.text()} (by rank){drawn}")


def _advice_on_lacks(judged: JudgedDrawing) -> Iterator[str]:
    """What to do with what is placed and isn't good."""
    if isinstance(judged.judgement.state, WithPlaces):
        lacks = dict.fromkeys(reason.lack for reason in reasons_against(judged))
        yield from (f"  what to do: {ADVICE[lack]}" for lack in lacks if lack in ADVICE)


def _missing_lines(judged: JudgedDrawing) -> Iterator[str]:
    """The rigid clusters of an open drawing, and what ties them."""
    lacks = judged.judgement.missing
    if lacks is None:
        return
    for piece in lacks.pieces:
        yield f"  cluster {piece.number}: {piece.text()}"
    for joint in lacks.joints[:MOST_ADVICE]:
        shared = f" share {' '.join(joint.shared)};" if joint.shared else ":"
        yield (f"  what to do: clusters {joint.first.number} and {joint.second.number}{shared} "
               f"{joint.text()}")
    if len(lacks.joints) > MOST_ADVICE:
        more = len(lacks.joints) - MOST_ADVICE
        yield f"  and {more} more pair{'s' if more > 1 else ''} of clusters"
    if not lacks.joints and not lacks.count:
        yield from _by_triangles(judged)


def _by_triangles(judged: JudgedDrawing) -> Iterator[str]:
    """What to do with what is open and lacks nothing by rank; nothing where lines are proposed."""
    if not judged.proposed:
        found = judged.finding
        by_chosen = found is not None and found.chosen and found.only_measured
        yield f"  what to do: {BY_CHOSEN if by_chosen else BY_TRIANGLES}"


def _proposed_lines(judged: JudgedDrawing) -> Iterator[str]:
    """What completes an open drawing."""
    if judged.proposed:
        yield (f"  what to do: add these lines, with which it is well ({COMMAND} complete says "
               "what each fixes)")
    yield from (f"    {line}" for line in judged.proposed)


def _nearly_lines(judged: JudgedDrawing) -> Iterator[str]:
    """The relations that it nearly has."""
    for each in judged.nearly:
        why = "no constraint says so" if each.is_free else "the constraints say otherwise"
        yield f"  nearly (by numbers): {each.line}, off by {each.off:.3g} {each.unit}; {why}"


def _unmet_lines(judged: CountedDrawing) -> Iterator[str]:
    """That no shape is found, and without what there is one."""
    unmet = judged.unmet()
    if unmet is not None:
        yield "  no shape with these values was found near the drawing (by numbers)"
    if unmet:
        yield (f"  what to do: correct one of {listed(unmet)}; without any one of these "
               "a shape is found")


def _surplus_lines(judged: CountedDrawing) -> Iterator[str]:
    """What is removable, how far it is off, and what the rest is then: first what leaves nothing
    missing."""
    judgement = judged.judgement
    yield from (f"  over-constrained as measured, which isn't certified: {quoted(what)} can't be "
                "encoded, and the rest is enough" for what in judgement.measured_off)
    surplus = judged.surplus()
    if surplus != judgement.surplus:
        yield "  nothing conflicts: positions were found that meet every constraint (by numbers)"
    yield from _advice_on(surplus, judgement.free is not None)
    opening = [each for each in surplus if each.opens()]
    others = [each for each in surplus if not each.opens()]
    for each in others or opening:
        yield from _removable_lines(each, judged)
    if others and opening:
        yield "  removable too, but then the rest is open:"
        for each in opening:
            yield from _removable_lines(each, judged)
    yield from (f"  a dimension is missing all the same (by rank): {what}"
                for what in judgement.loose)


def _removable_lines(each: Surplus, judged: CountedDrawing) -> Iterator[str]:
    """A removable dimension, and its group: that of the program, or else that of the search."""
    drawing = judged.drawing
    rest = each.rest(drawing)
    then = f"; without it the rest is {rest}" if rest else ""
    name = with_words(each.name, drawing.wordings[each.number - 1])
    yield f"    {name}{_off_text(each)}{then}"
    follows = "in part " * each.in_part + FOLLOWS[each.repeats()]
    if each.others:
        yield f"      {follows}: {listed(each.others)}"
    elif others := each.others_by_numbers(judged.finding):
        yield f"      {follows} (by numbers): {listed(others)}"


def _off_text(each: Surplus) -> str:
    """What a removable dimension is, and how far it is off; by how much rounding changes that,
    where rounding may be all of it."""
    if each.off is None:
        return ""
    off = f"off by {amount_text(each.off)}"
    if each.may_be_rounding():
        by = units_text(each.rounding, each.off.unit)
        return f": {off}, which rounding changes by up to {by}"
    return f": {'redundant' if each.repeats() else 'conflicting'}, {off}"


def _advice_on(surplus: Sequence[Surplus], is_ranked: bool) -> Iterator[str]:
    """What to do with what is removable. is_ranked: whether that is known by rank."""
    if not surplus:
        return
    from pertxogai.judging.surplus import Then

    untried = [each for each in surplus if each.then is None]
    who = "by rank" if is_ranked else "named by the program"
    if all(each.then is Then.OVER for each in surplus):
        yield ("  what to do: more than one has to go; remove one of these, and judge again "
               f"({who}; each was tried)")
    else:
        tried = ("none was" if len(untried) == len(surplus) else
                 "some were" if untried else "each was")
        yield f"  what to do: remove one of these, and judge again ({who}; {tried} tried)"
