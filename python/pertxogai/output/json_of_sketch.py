"""A judged sketch as one object for JSON."""
from __future__ import annotations

from collections.abc import Iterator, Mapping, Sequence

from pertxogai.judging.choices import tried_json
from pertxogai.judging.good import reasons_json
from pertxogai.judging.judged_sketch import JudgedSketch, concerned, what_to_do
from pertxogai.language import Placed, PlacedCircle, PlacedLine
from pertxogai.program.reports import (
    AtConstraint, Excessive, Fault, FrameFault, LineFault, NumberFault, OverPart, Part, RangeFault,
    Solved)


def sketch_json(judged: JudgedSketch) -> dict[str, object]:
    """Everything that is reported of it, as one JSON object. A sketch of the language needs no
    encoding and leaves nothing out."""
    solved = judged.solved
    return {
        "name": judged.name,
        "verdict": judged.check.verdict.value,
        **reasons_json(judged),
        "parts": _parts(judged),
        "spelled": "as written",
        "exact": True,
        "left_out": [],
        "frozen": [],
        "spare": [{"number": it.number, "name": it.constraint.text()} for it in judged.spare],
        "excess": ([_excess(it, judged.groups()) for it in judged.excess.parts]
                   if judged.excess else []),
        "places": _places(solved.places) if solved else None,
        "length_tolerance_nm": solved.length_tolerance_nm if solved else None,
        "angle_tolerance_ppb": solved.angle_tolerance_ppb if solved else None,
        "fault": _fault(judged),
        "other_choice": tried_json(judged.sketch, judged.tried),
        "deviations": list(_deviations(judged)),
    }


def _parts(judged: JudgedSketch) -> list[dict[str, object]]:
    """The parts, and where they were placed one by one, where each lies in a frame of its own."""
    parts = [_part(part) for part in judged.check.parts]
    for entry, placed in zip(parts, judged.parts.parts if judged.parts else ()):
        shape = placed.shape
        entry["places"] = _places(shape.places) if isinstance(shape, Solved) else None
        entry["fault"] = shape.text().strip() if shape and not isinstance(shape, Solved) else None
    return parts


def _part(part: Part) -> dict[str, object]:
    return {
        "number": part.number,
        "over": part.over,
        "elements": list(part.elements),
        "held": part.held,
        "due": part.due,
    }


def _excess(over: OverPart, groups: Mapping[int, tuple[int, ...]]) -> dict[str, object]:
    """What is left out of a part that is over."""
    return {
        "part": over.part.number,
        "left_out": [_left_out(it) | {"follows_from": list(groups.get(it.number, ()))}
                     for it in over.left_out],
        "fault": over.fault.text().strip() if over.fault else None,
        "stays_over": over.stays_over(),
    }


def _left_out(left: Excessive) -> dict[str, object]:
    """A constraint that is left out: whether it repeats those that are kept, and how far off it is,
    in nm or ppb."""
    off = left.off
    return {
        "number": left.number,
        "name": left.constraint.text(),
        "repeats": None if off is None else not off.conflicts,
        "off": off.amount if off else None,
        "unit": off.unit.value if off else None,
        "turned": bool(off and off.turned),
    }


def _places(places: Sequence[Placed]) -> dict[str, object]:
    """Places by the names of elements, in nm and parts per 10^9."""
    return {it.name: _place(it) for it in places}


def _place(placed: Placed) -> dict[str, object]:
    if isinstance(placed, PlacedLine):
        return {"a_ppb": placed.a_ppb, "b_ppb": placed.b_ppb, "c_nm": placed.c_nm}
    place: dict[str, object] = {"x_nm": placed.x_nm, "y_nm": placed.y_nm}
    if isinstance(placed, PlacedCircle):
        place["radius_nm"] = placed.radius_nm
    return place


def _fault(judged: JudgedSketch) -> dict[str, object] | None:
    """The fault: the program's line, the constraints and lines that it concerns, and what to
    do."""
    fault = judged.fault
    if fault is None:
        return None
    return {
        "text": fault.text().strip(),
        "constraints": [it.text() for it in concerned(judged)],
        "at": list(_named(fault)),
        "what_to_do": what_to_do(fault, judged.tried, judged.by_points),
    }


def _named(fault: Fault) -> Iterator[str]:
    """The element that a fault's line names, if any."""
    match fault:
        case NumberFault(at) | RangeFault(at):
            yield at.element
        case FrameFault(element=name) | LineFault(name=name):
            yield name


def _deviations(judged: JudgedSketch) -> Iterator[dict[str, object]]:
    """What is off most, in nm and in ppb: the tolerances, each with what needs it."""
    if judged.solved is None:
        return
    for amount, unit, at in (
        (judged.solved.length_tolerance_nm, "nm", judged.solved.length_at),
        (judged.solved.angle_tolerance_ppb, "ppb", judged.solved.angle_at),
    ):
        if isinstance(at, AtConstraint):
            yield {
                "amount": amount,
                "unit": unit,
                "of": judged.sketch.constraints[at.number - 1].text(),
            }
        elif at:
            yield {"amount": amount, "unit": unit, "of": at.text()}
