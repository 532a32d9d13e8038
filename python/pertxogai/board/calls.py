"""The calls of the page: each takes an object of JSON and gives one."""
from __future__ import annotations

import json
from collections.abc import Callable, Mapping
from dataclasses import dataclass, field, replace
from fractions import Fraction
from typing import cast

from pertxogai.board import protocol
from pertxogai.board.board_drawing import BoardDrawing, NotPlaced
from pertxogai.board.checks import checks_shown
from pertxogai.board.dragging import Drags
from pertxogai.board.document import read_document, write_document
from pertxogai.board.drawing_json import sight_of
from pertxogai.board.edit_fields import read_edit
from pertxogai.board.edits import Move
from pertxogai.board.fields import FieldRefused, Fields
from pertxogai.board.judgement_json import (
    excess_shown, judgement_shown, places_shown, without_known)
from pertxogai.board.offers import corner_offers, offers
from pertxogai.board.opened_files import opened
from pertxogai.board.overlaid import laid_over
from pertxogai.board.overlap import Overlapping
from pertxogai.board.panel import Asides, Untold, lines_shown
from pertxogai.board.proposals import proposals_shown
from pertxogai.board.protocol import (
    Answer, ChangedDrawing, Completed, Dragged, Dxf, Edited, Fitted, Judged, Offered, Opened,
    OtherShape, Planned, Ranged, Svg, Trouble, Verified, Weighed)
from pertxogai.board.ranges import range_shown
from pertxogai.board.trimming import Extend, Trim
from pertxogai.completing import complete
from pertxogai.drawing import Drawing, DrawingRefusal, DrawingUnsound, Place, WordFault, checked
from pertxogai.files.contents import FileRefusal
from pertxogai.exits import MissingLibrary
from pertxogai.files.kinds import InputRefused
from pertxogai.fitting import fit
from pertxogai.judging import CountedDrawing, DrawingRefused, with_counts
from pertxogai.judging.edited import EditedDrawing
from pertxogai.judging.good import reasons_against
from pertxogai.judging.measure import PointNm
from pertxogai.language import NotHeld, Refusal
from pertxogai.language.flips import Flip
from pertxogai.output.drawing_sheet import DrawingSheet, NoPlaces
from pertxogai.output.json_of_drawing import spare_json
from pertxogai.output.picture.drawings import DrawnPlaces
from pertxogai.output.release import Release
from pertxogai.program import ProgramError, Solver, Status
from pertxogai.program.called import COMMAND
from pertxogai.program.reports import Flipped, NoChoice

LONGER = 60.0
"""The seconds, at least, with which a board is to be started whose calls had no more time."""
KEPT = 4
"""How many judgements are kept, for the calls that follow one."""


@dataclass
class Desk:
    """What answers the calls, with the last judgements by the texts of their drawings."""

    program: Solver
    kept: dict[str, BoardDrawing] = field(default_factory=dict)
    attending: Overlapping = field(init=False)
    drags: Drags = field(default_factory=Drags)

    def __post_init__(self) -> None:
        self.attending = Overlapping(self.program)

    def answer(self, name: str, given: object) -> Answer:
        """What a call gives: `refused` and `trouble` are told in it."""
        call = CALLS.get(name)
        if call is None:
            return trouble("call", f"{name!r} is no call of the board")
        self.attending.begin()
        try:
            return call(self, Fields.of(given))
        except DrawingRefusal as refusal:
            return {"refused": {"line": refusal.line, "message": str(refusal)}}
        except (WordFault, DrawingUnsound) as fault:
            return trouble("edit", str(fault))
        except NoPlaces as error:
            return trouble("call", f"{error}; see the verdict, or export SVG, which shows it as "
                           "drawn")
        except (FieldRefused, InputRefused, FileRefusal, NotPlaced, DrawingRefused) as error:
            return trouble("call", str(error))
        except (ProgramError, MissingLibrary) as error:
            return trouble("program", str(error))
        except (Refusal, NotHeld) as error:
            return trouble("language", f"the program rejects the encoded sketch: {error}")

    def text(self, name: str, given: object) -> str:
        """What a call gives, as JSON."""
        return json.dumps(self.answer(name, given))

    def judged(self, text: str) -> BoardDrawing:
        """The drawing of a text, with a program to ask. Raises DrawingRefusal."""
        known = self.kept.get(text)
        if known is None:
            known = BoardDrawing(EditedDrawing(read_document(text)), self.attending)
        return self.keep(text, known)

    def keep(self, text: str, judged: BoardDrawing) -> BoardDrawing:
        """Keeps a drawing by its text, as the latest; the one that was asked for longest ago
        goes."""
        self.kept.pop(text, None)
        self.kept[text] = judged
        while len(self.kept) > KEPT:
            del self.kept[next(iter(self.kept))]
        return judged

    def edited(self, drawing: Drawing, known: BoardDrawing, given: Fields) -> Edited:
        """What is told of a drawing that an edit has made of a known one, kept by its text as
        what that reads as; where the page `knows` what was told here of that one, without what is
        as it was. Raises DrawingUnsound."""
        edited = EditedDrawing(checked(drawing, known.drawing), known.edited)
        judged = BoardDrawing(edited, self.attending)
        text = self.attending.meanwhile(lambda: write_document(edited.drawing))
        is_known = given.has("knows") and given.text("knows") == known.name
        found = _whole(judged, given.texts("left_out"), known, is_known)
        self.keep(text.value, judged)
        found["text"] = text.value
        return found


def trouble(kind: str, message: str) -> Answer:
    """Why a call has no answer: what kind of trouble, and one line that says what to do."""
    return {"trouble": _trouble(kind, message)}


def too_long(seconds: float) -> str:
    """That a call had no more time, and what to do: on a busy machine even an empty drawing may
    take longer than a board's call has by default."""
    return (f"the call took over {seconds:g} s and was stopped; the drawing stays as it was. Try "
            f"again; if it is stopped again, start the board by {COMMAND} page --seconds "
            f"{max(LONGER, 6 * seconds):g}")


def _trouble(kind: str, message: str) -> Trouble:
    return {"kind": kind, "message": " ".join(message.split())}


def _judge(desk: Desk, given: Fields) -> Judged:
    """The drawing of a text, and the judgement on it."""
    text = given.text("text")
    found = cast(Judged, _whole(desk.judged(text), given.texts("left_out")))
    found["text"] = text
    return found


def _whole(judged: BoardDrawing, left_out: tuple[str, ...], before: BoardDrawing | None = None,
           is_known: bool = False) -> Edited:
    """The judgement, and what is drawn, by what was drawn before; where that `is_known` on the
    page, without what is as it was. left_out: what the drawing can't say of its file."""
    answer: Edited = {"told": judged.name, "judgement": None}
    shown, sight = None, before.sight if before else None
    try:
        if judged.drawing.geometry:
            shown = judged.shown()
            judged.told = judgement_shown(judged.with_file(judged.judgement, left_out),
                                          judged.parts, judged.placed(before), judged.short)
            known = before.told if before and is_known else None
            answer["judgement"] = without_known(judged.told, known)
    except DrawingRefused as error:
        answer["trouble"] = _trouble("language", str(error))
    except ProgramError as error:
        answer["trouble"] = _trouble("program", str(error))
    except (Refusal, NotHeld) as error:
        answer["trouble"] = _trouble("language", f"the program rejects the encoded sketch: {error}")
    found = sight_of(judged.drawing, shown, sight)
    judged.sight = None if "trouble" in answer else found
    whole = cast(ChangedDrawing, found.told())
    answer["drawing"] = found.changed(sight) if sight and is_known else whole
    return answer


def _edit(desk: Desk, given: Fields) -> Edited:
    """The text that an edit makes of a text, and all that `judge` tells of it."""
    known = desk.judged(given.text("text"))
    edit = read_edit(known.drawing, Fields.of(given.values.get("edit")))
    if isinstance(edit, (Trim, Extend)):
        edit = replace(edit, shown=known.as_shown())
    return desk.edited(edit.on(known.drawing), known, given)


def _drag(desk: Desk, given: Fields) -> Dragged:
    """A frame of a drag of what is open."""
    return desk.drags.frame(desk.judged(given.text("text")), given)


def _offers(desk: Desk, given: Fields) -> Offered:
    """Which constraints fit some points and shapes, and what may be made of their corner."""
    drawing, names = desk.judged(given.text("text")).drawing, given.texts("names")
    asks: list[protocol.Offer] = [
        {"do": "ask", "words": list(each.words), "sign": each.sign, "value": each.value}
        for each in offers(drawing, names)]
    corners: list[protocol.Offer] = [
        {"do": "corner", "words": list(each.words), "sign": each.sign, "value": each.value}
        for each in corner_offers(drawing, names)]
    return {"offers": [*asks, *corners]}


def _weigh(desk: Desk, given: Fields) -> Weighed:
    """What is left out of a drawing that is over, and what may go instead, each with how far it is
    off without it; where one of these can't be told, the other, and why. Of one that is well and
    isn't met, what comes of other choices; of one that is open, what the program constructs of it
    with values that were found, or what can't all be met."""
    judged = desk.judged(given.text("text"))
    judgement, left, weighing = judged.weighed, judged.too_much, judged.weighing
    unweighed = weighing if isinstance(weighing, Untold) else None
    return {"spare": [spare_json(each) for each in judgement.surplus],
            "excess": excess_shown(judgement, left),
            "lines": lines_shown(replace(judged.with_file(judgement, given.texts("left_out")),
                                         finding=judged.constructed or judged.clashing),
                                 Asides(left, unweighed, judged.short))}


def _complete(desk: Desk, given: Fields) -> Completed:
    """The lines that complete a drawing, or why none are proposed."""
    judged = desk.judged(given.text("text"))
    found = complete(judged.drawing, desk.attending, judged.judgement.limit)
    return proposals_shown(judged.drawing, found, judged.shown())


def _fit(desk: Desk, given: Fields) -> Fitted:
    """What comes of the checks of a drawing."""
    judged = desk.judged(given.text("text"))
    found = fit(judged.drawing, desk.attending, judged.judgement.limit)
    return checks_shown(judged.drawing, found, judged.shown())


def _range(desk: Desk, given: Fields) -> Ranged:
    """How far a dimension or a value can go, or why that can't be told."""
    number = given.whole("number") if given.has("number") else None
    name = given.text("name") if given.has("name") else None
    return range_shown(desk.judged(given.text("text")), number, name, given.texts("left_out"))


def _plan(desk: Desk, given: Fields) -> Planned:
    """The construction, step by step."""
    return {"construction": desk.judged(given.text("text")).construction().shown()}


def _flips(desk: Desk, given: Fields) -> OtherShape | Answer:
    """The other shape, in which the choices of some steps are turned over."""
    judged = desk.judged(given.text("text"))
    found = judged.flipped(_steps(given))
    if isinstance(found, Flipped):
        return trouble("flip", "this step has no choice that could be flipped"
                       if isinstance(found.answer, NoChoice) else
                       "with this choice flipped the part can't be placed with these dimensions")
    shape = laid_over(found, judged.solution(), judged.judgement.asked)
    return {"placed": places_shown(DrawnPlaces(judged.drawing, shape))}


def _redraw(desk: Desk, given: Fields) -> Edited | Answer:
    """The text with all points drawn where they are placed, or where they are in another
    shape: `steps` are turned over."""
    judged = desk.judged(given.text("text"))
    steps = _steps(given)
    found = judged.flipped(steps) if steps else judged.solution()
    if isinstance(found, Flipped):
        return trouble("flip", "the other shape can't be placed, so nothing is redrawn")
    moves = tuple((ref, _place(found.spot(ref))) for ref in judged.drawing.points())
    radii = tuple((name, Fraction(found.radius(name)) / 1000) for name in found.radii)
    return desk.edited(Move(moves, radii).on(judged.drawing), judged, given)


def _steps(given: Fields) -> tuple[int, ...]:
    """The steps whose choices are turned over. Raises FieldRefused where no list of flips takes
    them."""
    steps = given.wholes("steps")
    try:
        return Flip(steps).steps
    except ValueError as error:
        raise FieldRefused(f"'steps': {error}") from None


def _place(spot: PointNm) -> Place:
    """A place in nm, to the next micrometre."""
    x, y = (Fraction(round(Fraction(each) / 1000)) for each in spot)
    return Place(x, y)


def _verify(desk: Desk, given: Fields) -> Verified:
    """What the program says of the claim that is shown, and the claim."""
    judged = desk.judged(given.text("text"))
    return {"said": judged.verified().text().strip(), "claim": judged.claim().text()}


def _dxf(desk: Desk, given: Fields) -> Dxf:
    """The shapes as placed in DXF, by the version of `release`. Raises NoPlaces."""
    try:
        release = Release(given.text("release"))
    except ValueError:
        known = ", ".join(each.value for each in Release)
        raise FieldRefused(f"'release' has to be one of {known}") from None
    return {"dxf": _sheet(desk, given).dxf(release)}


def _svg(desk: Desk, given: Fields) -> Svg:
    """A picture as SVG."""
    return {"svg": _sheet(desk, given).picture().svg}


def _sheet(desk: Desk, given: Fields) -> DrawingSheet:
    judged = desk.judged(given.text("text"))
    judgement = with_counts(judged.weighed, desk.attending)
    whole = CountedDrawing(given.text("name"), judged.drawing, judgement, given.texts("left_out"))
    return DrawingSheet(whole, False)


def _program_dxf(desk: Desk, given: Fields) -> Dxf:
    """What the program itself writes as DXF of the sketch, byte by byte, where the drawing is
    good. Raises NotPlaced where it isn't."""
    judged = desk.judged(given.text("text"))
    whole = judged.with_file(judged.judgement, given.texts("left_out"))
    if why := "; ".join(each.text for each in reasons_against(whole)):
        raise NotPlaced(f"no DXF is written of what isn't good: {why}")
    words = ["dxf", f"place={judged.judgement.place.value}"]
    report = desk.program.ask(words, judged.text)
    if report.status is not Status.DONE:
        raise NotPlaced("the program doesn't place the drawing as it is now, so it writes no "
                        "DXF: see the verdict")
    return {"dxf": report.text}


def _open(desk: Desk, given: Fields) -> Opened:
    """The sketches of a file."""
    return {"sketches": opened(given.text("name"), given.text("data"))}


CALLS: Mapping[str, Callable[[Desk, Fields], Answer]] = {
    "judge": _judge, "edit": _edit, "drag": _drag, "offers": _offers, "weigh": _weigh,
    "complete": _complete, "fit": _fit, "range": _range, "plan": _plan, "flips": _flips,
    "redraw": _redraw, "verify": _verify, "dxf": _dxf, "svg": _svg,
    "program-dxf": _program_dxf, "open": _open,
}
