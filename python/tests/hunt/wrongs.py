"""Whether an answer is so: what was said of a drawing beside what is true of it."""
from __future__ import annotations

from collections.abc import Iterator
from dataclasses import dataclass, replace
from enum import Enum
from typing import Any

import numpy as np

from .asking import Answer
from .making import Kind, Made, turns
from .plane import Plane, Vector, real, size
from .reading import LEVELS, Spot, Word, read
from .rows import Row
from .truth import Matrix, Model, Untold, shifts_of_the_whole, truth

LIMIT_NM = LIMIT_PPB = 1000.0
SLACK, SLACK_NM = 1.01, 3.0
"""Floats, and places that were rounded to whole nanometres, may be off by so much more."""
ROUNDING_NM, ROUNDING_PPB = 4.0, 1e7
"""On a line so short that whole nanometres turn it by more than the limit, an end that lies so near is
right; no line is so short that this turns it further."""
NM = 1e6
STEP_MM = 1e-6
FLAT_MM = 1e-3
"""A triangle that is no higher on a side as long as all of the drawing is flat: whole nanometres turn
it over."""


class Cause(Enum):
    """In what way an answer is wrong."""

    GOOD_BUT_OFF = "good, and a word is off"
    GOOD_BUT_SIZELESS = "good, and a circle's size follows from nothing"
    GOOD_BUT_LACKS = "good, and dimensions are missing"
    GOOD_BUT_TURNED_OVER = "good, and mirrored against the drawing"
    WELL_LACKS = "well, and dimensions are missing"
    WELL_CONTRADICTS = "well, and its words contradict each other"
    REPEAT_UNTRUE = "well, and what is needed is called a repeat"
    REPEAT_SILENT = "well, and a repeat is passed over in silence"
    OVER_INDEPENDENT = "over, and nothing is said twice"
    OVER_UNLISTED = "over, and nothing is listed that may go"
    SPARE_UNLISTED = "over, and what may go by itself isn't listed"
    NEEDED_LISTED = "what is needed is listed as what may go"
    LACKS_UNTRUE = "lacks so many, which isn't so"
    LACKS_UNTOLD = "open, and it isn't told that dimensions are missing"
    REPEAT_CALLED_CONFLICT = "a repeat is called a contradiction"
    CONFLICT_CALLED_REPEAT = "a contradiction is called a repeat"
    CONFLICT_SILENT = "a contradiction is passed over in silence"
    FREEDOMS_UNTRUE = "by numbers so many degrees of freedom, which isn't so"
    RADII_UNTRUE = "by numbers a radius is free that isn't, or isn't that is"
    CLASH_UNTRUE = "by numbers words contradict each other that don't"
    FOUND_BUT_OFF = "placed by the search, and a word is off by more than is told"
    TRACEBACK = "a traceback"
    LATE = "no answer in a minute of a processor"
    REFUSED = "a sound drawing is refused"


class Reach(Enum):
    """How far an answer that is right reaches."""

    GOOD = "good"
    JUDGED = "judged rightly"
    NO_PLACES = "out of reach: well, and no places are found"
    NOT_RIGID = "out of reach: open, and rigid in truth"
    NOT_GOOD = "out of reach: well, and not told good"


@dataclass(frozen=True)
class Found:
    """What is wrong, and with what."""

    cause: Cause
    detail: str = ""


def wrongs(made: Made, answer: Answer) -> list[Found]:
    """All that is wrong about an answer."""
    if answer.late:
        return [Found(Cause.LATE)]
    if answer.crash:
        return [Found(Cause.TRACEBACK, answer.crash.strip().splitlines()[-1])]
    if not answer.said:
        return [Found(Cause.REFUSED, answer.complaint)]
    found = list(_good(made, answer)) if answer.is_good() else []
    check = {"well": _well, "open": _open, "over": _over}[answer.verdict]
    return found + list(check(made, answer)) + list(_searched(made, answer))


def reach(made: Made, answer: Answer) -> Reach:
    """How far a right answer reaches."""
    if answer.is_good():
        return Reach.GOOD
    if made.truth.lacks or made.truth.excess or made.is_impossible():
        return Reach.JUDGED
    if answer.verdict == "open":
        return Reach.NOT_RIGID
    return Reach.NOT_GOOD if answer.said.get("places") else Reach.NO_PLACES


def _good(made: Made, answer: Answer) -> Iterator[Found]:
    """What is wrong about an answer that is good."""
    worst = offs(made.text, answer.said.get("places") or {})
    if worst and worst[0].beyond > SLACK:
        yield Found(Cause.GOOD_BUT_OFF, str(worst[0]))
    sizeless = set(answer.names("undimensioned")) | made.truth.sizeless
    if sizeless:
        yield Found(Cause.GOOD_BUT_SIZELESS, " ".join(sorted(sizeless)))
    elif made.truth.lacks:
        yield Found(Cause.GOOD_BUT_LACKS, f"{made.truth.lacks}")
    if _is_turned_over(made, answer.said.get("places") or {}):
        yield Found(Cause.GOOD_BUT_TURNED_OVER)


def _is_turned_over(made: Made, places: dict[str, Any]) -> bool:
    """Whether each three points that don't lie on one line go round the other way than they are
    drawn; without the origin where the words don't tell from it, or tell elsewhere than it is drawn,
    what lies on which side of it."""
    model = Model.of(read(made.text))
    at = model.index.vector(model.sheet.drawn, model.sheet.radii), _vector(model, places)
    drawn, placed = (turns(model, each) for each in at)
    flat = [FLAT_MM * np.ptp(np.append(each.real, 0)) for each in at]
    told = (np.abs(drawn) > flat[0]) & (np.abs(placed) > flat[1])
    origin, sided = list(model.sheet.drawn).index("Origin"), _are_sided(made, model)
    for triples in (told, told.swapaxes(0, 1), told.swapaxes(0, 2)):
        triples[origin] &= sided
    return bool(told.any()) and not (drawn * placed > 0)[told].any()


def _are_sided(made: Made, model: Model) -> Matrix:
    """Whether words tell on which side of the way from one point to another the origin lies: not
    where a motion of the whole takes it across."""
    plane = model.plane(made.exact)
    spots = np.array([complex(x.real, y.real) for x, y in map(plane.spot, model.sheet.drawn)])
    ways = spots[None, :] - spots[:, None]
    across = [np.abs(x * ways.imag - y * ways.real)
              for x, y in shifts_of_the_whole(model, made.exact)]
    sided: Matrix = np.max([np.zeros(ways.shape), *across], axis=0) < STEP_MM
    return sided if made.kind is not Kind.ELSEWHERE else np.zeros(ways.shape, dtype=bool)


def _well(made: Made, answer: Answer) -> Iterator[Found]:
    """What is wrong about a verdict `well`."""
    true = made.truth
    told = len(set(answer.names("undimensioned")) & true.sizeless)
    if true.lacks > told:
        yield Found(Cause.WELL_LACKS, f"lacks {true.lacks}, told {told}")
    untrue = [name for group in answer.names("repeats") for name in group
              if name.startswith("constraint ") and _number(name) not in true.spare]
    if untrue:
        yield Found(Cause.REPEAT_UNTRUE, "; ".join(untrue))
    if made.contradicts():
        yield Found(Cause.WELL_CONTRADICTS, str(answer.names("left_out")))
    elif true.excess and answer.is_good() and not _speaks(answer):
        yield Found(Cause.REPEAT_SILENT, _listed(made, true.spare))


def _number(name: str) -> int:
    """The number of a word without a name of its own, as it is called."""
    return int(name.split()[1])


def _open(made: Made, answer: Answer) -> Iterator[Found]:
    """What is wrong about a verdict `open`."""
    lacks = answer.said["by_rank"]["lacks"]
    if lacks and lacks != made.truth.lacks:
        yield Found(Cause.LACKS_UNTRUE, f"told {lacks}, true {made.truth.lacks}")
    elif lacks != made.truth.lacks:
        yield Found(Cause.LACKS_UNTOLD, f"true {made.truth.lacks}")
    if made.contradicts() and not _speaks(answer):
        yield Found(Cause.CONFLICT_SILENT, _listed(made, made.truth.spare))


def _over(made: Made, answer: Answer) -> Iterator[Found]:
    """What is wrong about a verdict `over`."""
    spare = answer.names("spare")
    if not made.truth.excess:
        yield Found(Cause.OVER_INDEPENDENT)
        return
    left = _unlisted(made, spare)
    if not spare:
        yield Found(Cause.OVER_UNLISTED)
    elif left:
        yield Found(Cause.SPARE_UNLISTED, _listed(made, left))
    needed = [each["name"] for each in spare if _is_needed(made, each["number"])]
    if needed:
        yield Found(Cause.NEEDED_LISTED, "; ".join(needed))
    if made.truth.excess == 1 and not needed:
        yield from _called(made, spare)


def _is_needed(made: Made, number: int) -> bool:
    """Whether the rest of a drawing without a word has as many too many; not where that can't be
    told, since without the word others say it in the one place that their values leave."""
    if number in made.truth.spare:
        return False
    sheet = read(made.text)
    rest = replace(sheet, words=[word for place, word in enumerate(sheet.words, 1) if place != number])
    try:
        left = truth(Model.of(rest), made.exact).excess
    except Untold:
        return False
    return left >= made.truth.excess


def _called(made: Made, spare: list[dict[str, Any]]) -> Iterator[Found]:
    """What is called a repeat or a contradiction, where there is one too many."""
    for each in spare:
        if made.contradicts() and each.get("repeats") is True:
            yield Found(Cause.CONFLICT_CALLED_REPEAT, each["name"])
        if not made.contradicts() and each.get("repeats") is False:
            yield Found(Cause.REPEAT_CALLED_CONFLICT, f"{each['name']}: off by {each.get('off')} {each.get('unit')}")


def _searched(made: Made, answer: Answer) -> Iterator[Found]:
    """What is wrong about what the search found by numbers."""
    true, freedoms = made.truth, answer.said.get("freedoms")
    if freedoms is None:
        return
    inner = freedoms["count"] - freedoms["of_the_whole"]
    if inner != true.lacks and not freedoms["doubtful"]:
        yield Found(Cause.FREEDOMS_UNTRUE, f"told {inner}, true {true.lacks}")
    radii = set(answer.names("free_radii")) & read(made.text).radii.keys()
    if radii != true.sizeless and not freedoms["doubtful"]:
        yield Found(Cause.RADII_UNTRUE, f"told {sorted(radii)}, true {sorted(true.sizeless)}")
    clashes = [name for group in answer.names("contradictions") if not _may_clash(made, group)
               for name in group]
    if clashes and not made.is_impossible() and made.kind is not Kind.ELSEWHERE:
        yield Found(Cause.CLASH_UNTRUE, "; ".join(clashes))
    yield from _found_places(made, answer)


def _may_clash(made: Made, group: list[str]) -> bool:
    """Whether one of a group is too many in a drawing that contradicts itself. By rank the others
    needn't be: a distance that is as great as a right angle lets it be is met without that."""
    numbers = {_number(name) for name in group if name.startswith("constraint ")}
    return made.contradicts() and not numbers.isdisjoint(made.truth.spare)


def _found_places(made: Made, answer: Answer) -> Iterator[Found]:
    """What is wrong about places that were found for what isn't well: each word is off by no more
    than the greatest that is told, within the language's limit."""
    places = answer.said.get("places")
    if answer.verdict == "well" or not places:
        return
    told = max((each["amount"] for each in answer.names("deviations")), default=0)
    worst = offs(made.text, places)
    if worst and worst[0].beyond > SLACK * max(1.0, told / LIMIT_NM):
        yield Found(Cause.FOUND_BUT_OFF, str(worst[0]))


def _speaks(answer: Answer) -> bool:
    """Whether something is said to be too much, or left out."""
    return bool(answer.said["by_rank"]["excess"]) or any(
        answer.names(key) for key in ("repeats", "left_out", "spare"))


def _listed(made: Made, numbers: frozenset[int]) -> str:
    sheet = read(made.text)
    return "; ".join(sheet.lines[sheet.words[number - 1].line] for number in sorted(numbers))


def _unlisted(made: Made, spare: list[dict[str, Any]]) -> frozenset[int]:
    """The words that may go by themselves and aren't listed."""
    return made.truth.alone - {each["number"] for each in spare}


@dataclass(frozen=True)
class Off:
    """How far a word is off: in nm, in ppb where it is a direction, and how many times the limit
    that is."""

    line: str
    nm: float
    ppb: float | None
    beyond: float

    def __str__(self) -> str:
        ppb = "" if self.ppb is None else f", {self.ppb:.0f} ppb"
        return f"{self.line}: off by {self.nm:.0f} nm{ppb}"


def offs(text: str, places: dict[str, Any]) -> list[Off]:
    """How far each word, and what the shapes imply, is off at the places of an answer; the worst
    first."""
    model = Model.of(read(text))
    at = _vector(model, places)
    plane = model.plane(at)
    found = [_off(f"the shapes of {text[:20]}..", row) for row in model.ruler.implied(plane)]
    found += _shared(model, places)
    for word in model.sheet.words:
        found += [_off(_told(model, word), row) for row in _measured(model, plane, word)]
    return sorted(found, key=lambda each: -each.beyond)


def _measured(model: Model, plane: Plane, word: Word) -> list[Row]:
    """The numbers of a word: a level edge is off by its direction."""
    rows = model.ruler.measured(plane, word)
    if word.kind not in LEVELS or len(word.names) > 1:
        return rows
    arm = max(real(size(plane.way(word.names[0]))), STEP_MM)
    return [Row(row.off / arm, arm) for row in rows]


def _told(model: Model, word: Word) -> str:
    return f"{model.sheet.lines[word.line]} ({' '.join((word.kind, *word.names))})"


def _off(line: str, row: Row) -> Off:
    off = abs(real(row.off))
    if row.arm is None:
        return Off(line, off * NM, None, off * NM / LIMIT_NM)
    sine = 2 - off if row.backward else off
    arm = row.arm if np.isfinite(row.arm) else 1e3
    nm, ppb = sine * arm * NM, sine * 1e9
    is_rounding = nm <= ROUNDING_NM + SLACK_NM and ppb <= ROUNDING_PPB
    return Off(line, nm, ppb, 0.0 if is_rounding else ppb / LIMIT_PPB)


def _vector(model: Model, places: dict[str, Any]) -> Vector:
    """The vector of the answer's places, in mm."""
    spots = {name: _spot(places, name) for name in model.index.points}
    radii = {name: float(places[name]["radius_nm"]) / NM for name in model.index.radii}
    return model.index.vector(spots, radii)


def _spot(places: dict[str, Any], name: str) -> Spot:
    shape, _, which = name.partition(".")
    at = places[shape][which or "at"]
    return at["x_nm"] / NM, at["y_nm"] / NM


def _shared(model: Model, places: dict[str, Any]) -> list[Off]:
    """How far the points of shapes that share one are apart."""
    found = []
    for name, unknown in model.sheet.unknown.items():
        if name not in (unknown, "Origin"):
            here = _spot(places, name)
            there = (0.0, 0.0) if unknown == "Origin" else _spot(places, unknown)
            far = float(np.hypot(here[0] - there[0], here[1] - there[1])) * NM
            found.append(Off(f"{name} is {unknown}", far, None, far / LIMIT_NM))
    return found


__all__ = ["Cause", "Found", "Off", "Plane", "Reach", "offs", "reach", "wrongs"]
