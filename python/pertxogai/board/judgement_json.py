"""The judgement on a drawing, as one object of JSON for the page. Lengths are millimetres to look
at; what was measured stays in whole nanometres."""
from __future__ import annotations

from collections.abc import Iterable, Mapping
from typing import cast

from pertxogai.board.panel import Asides, Untold, alone_of, excess_told, lines_shown, rounded_of
from pertxogai.board.placed_parts import LaidPart
from pertxogai.board.protocol import (
    Amount, ChangedJudgement, Excess, Failure, Found, Judgement as JudgementJson, Missing, Places,
    Point)
from pertxogai.board.stillness import why_still
from pertxogai.drawing import Arc, Circle, PointRef
from pertxogai.judging import Judgement, TooMuch
from pertxogai.judging.good import reasons_json
from pertxogai.judging.judged_drawing import JudgedDrawing
from pertxogai.judging.parts import parts_of_points, parts_of_shapes
from pertxogai.output.json_of_drawing import spare_json
from pertxogai.output.picture.marks import PointMm
from pertxogai.output.picture.drawings import DrawnPlaces
from pertxogai.program.reports import Verdict

LONG = "placed", "found", "laid", "colours", "language"
"""What of a judgement isn't told again to a page that knows it."""


def judgement_shown(judged: JudgedDrawing, parts: Iterable[LaidPart], placed: Places | None,
                    short: str = "") -> JudgementJson:
    """What is judged, and where it is shown, as it is placed and by its parts; and by how much the
    dimensions beneath a fault miss each other. What is left out of what is over isn't told yet."""
    judgement, reasons = judged.judgement, reasons_json(judged)
    return {
        "verdict": judgement.verdict.value,
        "good": reasons["good"],
        "why_not": reasons["why_not"],
        "lines": lines_shown(judged, Asides(short=short)),
        "spare": [spare_json(each) for each in judgement.surplus],
        "excess": [],
        "repeats": list(judgement.repeats),
        "still": why_still(judgement),
        "placed": placed,
        "found": _found(judged),
        "laid": [_laid(part) for part in parts],
        "colours": _colours(judgement),
        "missing": _missing(judgement),
        "failure": _failure(judgement),
        "language": judgement.asked.spelled.sketch.text(),
    }


def _found(judged: JudgedDrawing) -> Found | None:
    """The shape of what is open that was found by numbers, and what of it is free."""
    finding, drawing = judged.finding, judged.drawing
    if finding is None or finding.solution is None:
        return None
    moving = {move.point for move in finding.moves}
    points = [str(ref) for ref in drawing.points() if drawing.meetings.leader(ref) in moving]
    return {
        "places_by": "numbers",
        "places": places_shown(DrawnPlaces(drawing, finding.solution)),
        "freedoms": {"count": finding.freedoms, "of_the_whole": finding.of_the_whole,
                     "doubtful": finding.is_doubtful},
        "moves": [{"point": str(move.point), "dx": round(move.dx, 6), "dy": round(move.dy, 6)}
                  for move in finding.moves],
        "free": [*dict.fromkeys(finding.free_shapes(drawing)), *points],
        "free_radii": list(finding.free_radii),
    }


def without_known(judgement: JudgementJson, known: JudgementJson | None) -> ChangedJudgement:
    """A judgement without what is long, and is as it was in one that the page knows."""
    if known is None:
        return cast(ChangedJudgement, judgement)
    before = dict(known)
    return cast(ChangedJudgement, {what: now for what, now in judgement.items()
                                   if what not in LONG or now != before[what]})


def excess_shown(judgement: Judgement, left: TooMuch | Untold) -> list[Excess]:
    """The dimensions that are left out, each as it is told."""
    if isinstance(left, Untold):
        return []
    alone = alone_of(judgement, left.dimensions)
    return [{"number": each.number, "conflicts": each.conflicts,
             "told": excess_told(each, rounded_of(judgement, each) or alone)}
            for each in left.dimensions]


def places_shown(where: DrawnPlaces) -> Places:
    """Where all points lie, and how large the rims are."""
    drawing = where.drawing
    rims = [shape.name for shape in drawing.geometry if isinstance(shape, (Circle, Arc))]
    return {"part": None, "points": _points({ref: where.at(ref) for ref in drawing.points()}),
            "radii": {name: where.radius(name) for name in rims}}


def _laid(part: LaidPart) -> Places:
    return {"part": part.number, "points": _points(part.points), "radii": part.radii}


def _points(points: Mapping[PointRef, PointMm]) -> dict[str, Point]:
    return {str(ref): spot for ref, spot in points.items()}


def _colours(judgement: Judgement) -> dict[str, int]:
    """The parts of the points and shapes, by their names; none of what is all of one part."""
    if judgement.verdict is Verdict.WELL:
        return {}
    return {**parts_of_points(judgement), **parts_of_shapes(judgement)}


def _missing(judgement: Judgement) -> Missing | None:
    found = judgement.missing
    if found is None:
        return None
    return {
        "lacks_by_rank": found.count,
        "excess_by_rank": [list(each) for each in judgement.too_many],
        "pieces": [{"number": piece.number, "elements": list(piece.elements)}
                   for piece in found.pieces],
        "joints": [{"first": joint.first.number, "second": joint.second.number,
                    "tie": joint.tie.name.lower(), "do": joint.text(),
                    "shared": list(joint.shared)} for joint in found.joints],
    }


def _failure(judgement: Judgement) -> Failure | None:
    """A fault: the program's words, what is beneath it, where, and by how much it misses."""
    found = judgement.failure
    if found is None:
        return None
    amount: Amount | None = None
    if found.amount is not None:
        low, high = found.amount.low, found.amount.high
        amount = {"low": float(low), "high": float(high), "unit": found.amount.unit.value}
    return {"text": found.text.strip(), "dimensions": list(found.dimensions),
            "at": list(found.at), "amount": amount}
