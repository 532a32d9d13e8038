"""A judged drawing as one object for JSON."""
from __future__ import annotations

from dataclasses import asdict
from typing import TYPE_CHECKING, TypedDict

from pertxogai.drawing import Circle, Drawing, PointRef
from pertxogai.drawing.geometry import Arc
from pertxogai.judging.good import reasons_json
from pertxogai.judging.judged_drawing import CountedDrawing, JudgedDrawing
from pertxogai.judging.measure import Deviation, Solution
from pertxogai.judging.measure.upright import upright
from pertxogai.judging.states import WithPlaces
from pertxogai.output.finding_text import finding_json
from pertxogai.output.values_text import values_json
from pertxogai.program.reports import Part

if TYPE_CHECKING:  # What isn't well, or isn't met, imports what is told of it alone.
    from pertxogai.judging.judgement import CountedJudgement, Judgement
    from pertxogai.judging.surplus import Surplus


def drawing_json(judged: CountedDrawing) -> dict[str, object]:
    """Everything that is reported of it, as one JSON object. Positions are in nm in the coordinates
    of the datum, whole numbers if they were printed in these."""
    judgement, unmet = judged.judgement, judged.unmet()
    return {
        "name": judged.name,
        "verdict": judgement.verdict.value,
        **reasons_json(judged),
        "parts": [_part(judgement, part) for part in judgement.asked.check.parts],
        **spelled_json(judged),
        **values_json(judged.drawing),
        **finding_json(judged),
        "proposed": list(judged.proposed),
        "nearly": [asdict(each) for each in judged.nearly],
        "measured_over": list(judgement.measured_off),
        "by_rank": _by_rank(judgement),
        "spare": _spare(judged),
        **_placed_json(judged),
        "by_numbers": {"unmet": None if unmet is None else list(unmet)},
        "warnings": [each.text() for each in judged.warnings()],
        **_stored_json(judged),
    }


def _stored_json(judged: CountedDrawing) -> dict[str, object]:
    """How far off the stored places are, where that was asked for."""
    if judged.stored is None:
        return {}
    from pertxogai.output.stored_text import stored_json

    return {"as_stored": stored_json(judged.stored, judged.drawing)}


def _by_rank(judgement: CountedJudgement) -> dict[str, object]:
    """What is counted by the rank of what the drawing says, and not by the program: how many
    dimensions are lacking at least, None where that isn't known; how the whole may be moved, what
    is too many though the drawing isn't over, and what is loose though it is."""
    whole, free = judgement.whole, judgement.free
    return {"lacks": None if free is None else free.lacks,
            "whole": whole.text() if whole else "",
            "excess": [list(each) for each in judgement.too_many],
            "loose": list(judgement.loose)}


def spelled_json(judged: JudgedDrawing) -> dict[str, object]:
    """How it was spelled, and what was not spelled as it is said; `exact` is whether there is
    none of that."""
    judgement = judged.judgement
    return {
        "spelled": judgement.style.value,
        "exact": not (judgement.frozen or judgement.grown or judgement.rounded
                      or judgement.left_out_measured or judged.left_out()),
        "left_out": list(judged.left_out()),
        "left_out_but_holds": [each.name for each in judgement.left_out_measured
                               if each.holds()],
        "aside": list(judged.aside),
        "frozen": list(judgement.frozen),
        "grown": list(judgement.grown),
        "rounded": list(judgement.rounded),
        "repeats": list(judgement.repeats),
        "undimensioned": list(judgement.undimensioned),
    }


def _placed_json(judged: CountedDrawing) -> dict[str, object]:
    """Where it is placed and within what, or the program's fault."""
    judgement = judged.judgement
    placed, places = judgement.solution is not None, judged.places()
    return {
        "places": _places(judged.drawing, places) if places else None,
        **within_json(judged),
        "fault": None if placed else _fault(judgement, judged.short),
        "other_choice": _other_choice(judgement),
    }


def _other_choice(judgement: CountedJudgement) -> dict[str, object] | None:
    """What came of other choices of its steps, where they were tried."""
    if judgement.tried is None:
        return None
    from pertxogai.judging.choices import tried_json

    return tried_json(judgement.asked.spelled.sketch, judgement.tried, judgement.names.element)


def within_json(judged: JudgedDrawing) -> dict[str, object]:
    """Within what it is placed, and the greatest deviations, in nm and ppb."""
    state = judged.judgement.state
    placed = state if isinstance(state, WithPlaces) else None
    return {
        "length_tolerance_nm": placed.length_nm if placed else None,
        "angle_tolerance_ppb": placed.angle_ppb if placed else None,
        "deviations": [_deviation(each, judged.drawing) for each in judged.worst()],
    }


def _part(judgement: Judgement, part: Part) -> dict[str, object]:
    """A part by the points and segments that the designer drew."""
    return {"number": part.number, "over": part.over,
            "elements": list(judgement.names.elements(part.elements)),
            "held": part.held, "due": part.due}


class SpareJson(TypedDict):
    """A dimension that may go, as JSON. off, unit: how far it is off without it; rest: what the
    others are then; null where that isn't known. rounding: by how much `off` moves with values that
    had to be rounded, in the same unit. follows_from: the names of the others that it repeats or
    contradicts, by the program's `why`, of those that by rank take part."""

    number: int
    name: str
    repeats: bool | None
    off: int | None
    unit: str | None
    rounding: int
    rest: str | None
    follows_from: list[str]


def spare_json(each: Surplus) -> SpareJson:
    """A dimension that may go."""
    return {"number": each.number, "name": each.name, "repeats": each.repeats(),
            "off": each.off.amount if each.off is not None else None,
            "unit": each.off.unit.value if each.off is not None else None,
            "rounding": each.rounding,
            "rest": each.then.value if each.then is not None else None,
            "follows_from": list(each.others)}


def _spare(judged: CountedDrawing) -> list[dict[str, object]]:
    """What may go, each with its group by the program, or else by numbers; whether more is missing
    then, and what of the rest isn't met."""
    return [{**spare_json(each), "in_part": each.in_part, "opens": each.opens(),
             "beyond": each.beyond and _deviation(each.beyond, judged.drawing),
             "follows_from_by_numbers": list(each.others_by_numbers(judged.finding))}
            for each in judged.surplus()]


def _places(drawing: Drawing, solution: Solution) -> dict[str, object]:
    """The placed points of each shape, and the radii of its rims."""
    level = upright(solution)
    places: dict[str, dict[str, object]] = {}
    for ref in drawing.points():
        if ref in level.points:
            places.setdefault(ref.shape, {})[ref.which.value] = _nm(level, ref)
    for shape in drawing.geometry:
        if isinstance(shape, (Circle, Arc)) and shape.name in level.radii:
            places.setdefault(shape.name, {})["radius_nm"] = round(level.radii[shape.name])
    return dict(places)


def _nm(solution: Solution, ref: PointRef) -> dict[str, int]:
    """A place in whole nm."""
    x, y = solution.points[ref]
    return {"x_nm": round(x), "y_nm": round(y)}


def _fault(judgement: Judgement, short: str) -> dict[str, object] | None:
    """The program's fault, whole, what it is about, and the sentence that the lines print. short:
    by how much the dimensions miss each other, where that is known."""
    failure = judgement.failure
    if failure is None:
        return None
    from pertxogai.output.fault_text import fault_text

    return {"text": failure.text.strip(), "constraints": list(failure.dimensions),
            "at": list(failure.at),
            "message": fault_text(judgement, failure, short).replace("\u00a0", " ")}


def _deviation(each: Deviation, drawing: Drawing) -> dict[str, object]:
    """How far something is off."""
    return {"amount": each.amount, "unit": each.unit.value, "of": each.called(drawing)}
