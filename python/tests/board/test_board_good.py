"""What the board shows and writes as good: what the type of the good says, and nothing else."""
from __future__ import annotations

import pytest

pytest.importorskip("flask", reason="the board needs Debian's python3-flask")

from pertxogai.board.calls import Desk  # noqa: E402
from pertxogai.program import Program  # noqa: E402

PLATE = ("rectangle Plate 0 0 61 39\ncircle Hole 30 20 5\ncoincident PlateBottom.start Origin\n"
         "length PlateBottom 60\nlength PlateRight 40\nx Hole 30\ny Hole 20\nradius Hole 5\n")
WIDE = ("segment A 0 0 40 0\nsegment B A.end 20 30\nsegment C B.end A.start\nlength B 38\n"
        "length C 36\nangle A B 120deg\nangle C 60deg\ncoincident A.start Origin\n")
"""A triangle that can't be: over against a corner of 120 degrees lies the longest side, and it is
placed with another corner."""
UNSIZED = PLATE.replace("radius Hole 5\n", "")
ELLIPSE = "Ellipse9: a drawing has no ellipse"


def judged(program: Program, text: str, **more: object) -> dict[str, object]:
    """The judgement that the page is told."""
    found = Desk(program).answer("judge", {"text": text, **more})["judgement"]
    assert isinstance(found, dict) and found["verdict"] == "well"
    return found


def lines(judgement: dict[str, object], name: str) -> list[dict[str, object]]:
    """The lines of a list of the panel."""
    found = judgement["lines"]
    assert isinstance(found, list)
    return [each for each in found if each.get("list") == name]


def test_what_is_good_is_told_as_good(program: Program) -> None:
    found = judged(program, PLATE)
    assert found["good"] is True and found["why_not"] == []
    assert lines(found, "what isn’t met") == []


@pytest.mark.parametrize("text, told, number", [
    (WIDE, "constraint 3 (angle A B 120deg) is off by 180 degrees", 3),
    (UNSIZED, "no size is given for Hole", None)])
def test_what_is_well_and_not_good_is_told_with_its_reason(
        program: Program, text: str, told: str, number: int | None) -> None:
    found = judged(program, text)
    assert found["good"] is False
    (line,) = lines(found, "what isn’t met")
    assert line["text"] == told and line.get("constraint") == number
    told_first = found["lines"][0]["text"]
    assert told_first == "Fully constrained and placed, but not good:"


def test_what_is_left_out_of_a_file_is_told_until_it_is_done(program: Program) -> None:
    found = judged(program, PLATE, left_out=[ELLIPSE])
    assert found["good"] is False
    (line,) = lines(found, "left out of the file")
    assert line["text"] == line["forgets"] == ELLIPSE
    assert judged(program, PLATE, left_out=[])["good"] is True


def test_it_is_told_also_behind_an_edit(program: Program) -> None:
    desk = Desk(program)
    edit = {"do": "value", "number": 6, "value": "61"}
    given = {"text": PLATE, "edit": edit, "left_out": [ELLIPSE]}
    found = desk.answer("edit", given)["judgement"]
    assert isinstance(found, dict) and found["good"] is False
    assert lines(found, "left out of the file")


@pytest.mark.parametrize("call", ["dxf", "program-dxf"])
@pytest.mark.parametrize("text, left_out, why", [
    (WIDE, [], "is off by 180 degrees"), (UNSIZED, [], "no size is given for Hole"),
    (PLATE, [ELLIPSE], "left out of the file: Ellipse9")])
def test_no_dxf_is_written_of_what_is_not_good(
        program: Program, call: str, text: str, left_out: list[str], why: str) -> None:
    given = {"text": text, "name": "part", "release": "R2010", "left_out": left_out}
    found = Desk(program).answer(call, given)
    assert "dxf" not in found
    assert why in str(found["trouble"]) and "--" not in str(found["trouble"])


@pytest.mark.parametrize("call", ["dxf", "program-dxf"])
def test_a_dxf_is_written_of_what_is_good(program: Program, call: str) -> None:
    given = {"text": PLATE, "name": "part", "release": "R2010", "left_out": []}
    assert "ENTITIES" in str(Desk(program).answer(call, given)["dxf"])


TURNED = """point A 0 0
point B 4 0
point C 0 3
point D 2 -2
point E 1 1
distance A B 4
distance A C 3
distance B C 5
distance A D 2.828
distance B D 2.828
distance C E 2
distance D E 2
"""
"""C and D are drawn on two sides of A B, more than 4 mm apart; on one side they are nearer."""


def test_of_what_has_no_places_it_is_told_a_moment_later_which_choice_has(program: Program) -> None:
    desk = Desk(program)
    first = desk.answer("judge", {"text": TURNED})["judgement"]
    assert isinstance(first, dict) and first["placed"] is None and first["good"] is False
    assert lines(first, "what to draw otherwise") == []
    found = desk.answer("weigh", {"text": TURNED})
    (line,) = lines(found, "what to draw otherwise")
    assert line["text"].startswith("draw ") and " on the other side of " in line["text"]


def test_of_what_no_choice_meets_it_is_told_how_many_were_tried(program: Program) -> None:
    """On one side of A B, C and D are still more than 2 mm apart."""
    text = TURNED.replace("C E 2", "C E 1").replace("D E 2", "D E 1")
    told = [str(each["text"]) for each in Desk(program).answer("weigh", {"text": text})["lines"]]
    (line,) = [each for each in told if each.startswith("No alternative solution meets them (")]
    assert line.endswith(" tried, all there are).")
    assert any("mm too short to meet" in each for each in told)
