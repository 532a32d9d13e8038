"""What the page is told of a drawing that an edit has made is what it would be told of it by
itself, whatever of the drawing before is taken over; and a page that knows that has all of it."""
from __future__ import annotations

from collections.abc import Iterator
from fractions import Fraction
from pathlib import Path

import pytest

from boards import DRAWINGS
from pertxogai.board import board_drawing
from pertxogai.board.calls import Desk
from pertxogai.board.drawing_json import Sight, sight_of
from pertxogai.board.edits import (
    Ask, Call, Construction, Draw, Edit, Erase, Move, Rename, Shift, Value)
from pertxogai.board.new_names import Figure
from pertxogai.drawing import Drawing, DrawingUnsound, Place, WordFault, checked, read_drawing
from pertxogai.judging.measure import Solution
from pertxogai.program import Answer, Program, ProgramError

PATHS = sorted(DRAWINGS.glob("*.drawing"))
THERE = Place(Fraction(12_500), Fraction(-700))


def edits(drawing: Drawing) -> Iterator[Edit]:
    """An edit of each kind."""
    shape, point = drawing.geometry[0].name, tuple(drawing.points())[-1]
    yield Draw(Figure.CIRCLE, (THERE,), Fraction(3000))
    yield Draw(Figure.SEGMENT, (point, THERE))
    yield Move(((point, THERE),))
    yield Shift((shape,), (), Fraction(1000), Fraction(-2000))
    yield Erase((shape,), ())
    yield Erase((), (1,))
    yield Ask(("x", str(point), "12"))
    yield from (Value(number, "7") for number, each in enumerate(drawing.constraints, 1)
                if hasattr(each, "value_um"))
    yield Call(1, "Told so")
    yield Rename(shape, "Another")
    yield Construction((shape,), True)


def edited(drawing: Drawing) -> Iterator[Drawing]:
    """What each edit makes that the drawing allows."""
    for edit in edits(drawing):
        try:
            yield checked(edit.on(drawing), drawing)
        except (WordFault, DrawingUnsound):
            continue


def as_drawn(drawing: Drawing, aside_nm: int = 0) -> Solution:
    """The places where all is drawn, the last point so far aside."""
    at = {ref: drawing.drawn(ref) for ref in drawing.points()}
    points = {ref: (1000 * place.x_um, 1000 * place.y_um) for ref, place in at.items()}
    for last in list(points)[-1:]:
        points[last] = points[last][0] + aside_nm, points[last][1]
    radii = {shape.name: 1000 * drawing.drawn_radius_um(shape.name) for shape in drawing.geometry
             if hasattr(shape, "centre")}
    return Solution(points, radii)


def completed(told: dict, known: dict) -> dict:
    """What the page has of what it is told, and what it knows."""
    return {what: known[what] if things is None else
            [known[what][place] if each is None else each for place, each in enumerate(things)]
            for what, things in told.items()}


def sights(drawn: Sight, placed: Sight, new: Drawing) -> Iterator[tuple[Sight, Sight, Sight]]:
    """A sight of the drawing before, that of the new one by it, and that of the new one by itself:
    each where it is drawn, and as it is placed."""
    for now, befores in ((None, (drawn, placed)), (as_drawn(new), (drawn, placed)),
                         (as_drawn(new, 9_000_000), (placed,))):
        alone = sight_of(new, now)
        yield from ((before, sight_of(new, now, before), alone) for before in befores)


@pytest.mark.parametrize("path", PATHS, ids=lambda path: path.stem)
def test_an_edit_of_each_kind(path: Path) -> None:
    drawing = read_drawing(path.read_text(encoding="utf-8"))
    drawn, placed = sight_of(drawing, None), sight_of(drawing, as_drawn(drawing))
    for new in edited(drawing):
        for before, found, alone in sights(drawn, placed, new):
            assert found == alone
            assert completed(found.changed(before), before.told()) == alone.told()


def test_of_what_is_as_it_was_nothing_is_told() -> None:
    drawing = read_drawing("segment A 0 0 9 0\ncircle C 1 1 2\nlength A 9\n")
    before = sight_of(drawing, None)
    assert sight_of(drawing, None, before).changed(before) == {
        "shapes": None, "constraints": None, "marks": None, "values": None}
    moved = checked(Move((), (("C", Fraction(3000)),)).on(drawing), drawing)
    told = sight_of(moved, None, before).changed(before)
    assert (told["constraints"], told["marks"]) == (None, None)
    assert [each and each["radius"] for each in told["shapes"]] == [None, 3]


class NoProgram:
    """A program that answers nothing."""

    def ask(self, words: object, text: str) -> Answer:
        raise ProgramError("nothing is asked here")


def test_behind_trouble_all_is_told() -> None:
    """The page doesn't take over what it was shown with trouble, nor does the server."""
    desk, text = Desk(NoProgram()), "segment A 0 0 9 0\ncircle C 1 1 2\n"
    told = desk.answer("judge", {"text": text})
    assert "trouble" in told
    edit = {"do": "move", "radii": [{"of": "C", "radius": 3}]}
    found = desk.answer("edit", {"text": text, "edit": edit, "knows": told["told"]})
    assert all(all(things) for things in found["drawing"].values())
    assert [each["name"] for each in found["drawing"]["shapes"]] == ["A", "C"]


def test_of_a_judgement_what_is_long_is_told_once(program: Program) -> None:
    text = "segment A 0 0 40 0\ncoincident A.start Origin\nhorizontal A\nlength A 40\n"
    given = {"text": text, "edit": {"do": "move", "points": [{"of": "A.end", "x": 41, "y": 1}]}}
    desk = Desk(program)
    judged = desk.answer("judge", {"text": text})
    known = judged["judgement"]
    told = desk.answer("edit", {**given, "knows": judged["told"]})["judgement"]
    whole = Desk(program).answer("edit", given)["judgement"]
    assert known["verdict"] == "well" and known["language"] != told["language"]
    assert known.keys() - told.keys() == {"placed", "found", "laid", "colours"}
    assert {**known, **told} == whole


def test_who_knows_what_another_worker_told_is_told_all(program: Program,
                                                         monkeypatch: pytest.MonkeyPatch) -> None:
    """One worker has found a shape of what is open, the other none in the time that it takes. What
    the one told isn't taken over to where the other finds none."""
    text = "segment A 0 0 40 0\nsegment B A.end 60 30\nlength A 41\n"
    edit = {"do": "move", "points": [{"of": "B.end", "x": 61, "y": 30}]}
    one, other = Desk(program), Desk(program)
    known = one.answer("judge", {"text": text})
    monkeypatch.setattr(board_drawing, "SEARCH_SECONDS", 0.0)
    assert other.answer("judge", {"text": text})["judgement"]["found"] is None
    given = {"text": text, "edit": edit, "knows": known["told"]}
    told = other.answer("edit", given)
    assert known["judgement"]["found"] and told["judgement"]["found"] is None
    assert all(told["drawing"]["shapes"])


def test_a_distance_from_an_edge_that_has_come_to_nothing_is_shown(program: Program) -> None:
    """Both ends are asked to lie at the origin."""
    pytest.importorskip("scipy", reason="a shape of what is open is found by scipy")
    found = Desk(program).answer("judge", {"text": (
        "segment S -10 0 10 0\npoint P 3 5\nx S.start 0\nx S.end 0\ny S.start 0\ny S.end 0\n"
        "distance P S 5\n")})
    points = found["judgement"]["found"]["places"]["points"]
    assert points["S.start"] == points["S.end"] == (0, 0)
    (bar,) = (each["bar"] for each in found["drawing"]["marks"] if each["number"] == 5)
    assert (0, 0) in bar
