"""What the board says to a hand that slips, and of amounts and faults: in its own words."""
from __future__ import annotations

import base64
import re
from collections.abc import Sequence

import pytest

pytest.importorskip("flask", reason="the board needs Debian's python3-flask")

from boards import FILES, drawing  # noqa: E402

from pertxogai.drawing import WordFault  # noqa: E402
from pertxogai.board.calls import Desk  # noqa: E402
from pertxogai.board.typed import value_word  # noqa: E402
from pertxogai.program import Answer, Program, ProgramError  # noqa: E402


class NoProgram:
    """A program that answers nothing."""

    def ask(self, words: object, text: str) -> Answer:
        raise ProgramError("nothing is asked here")


TEXT = ("segment Bottom 0 0 40 0\nsegment Left 0 0 0 30\ncircle Hole 20 15 4\n"
        "Width: length Bottom 40\nangle Bottom Left 90deg\n")


def edited(edit: dict[str, object]) -> dict[str, object]:
    """What an edit of the drawing gives."""
    return Desk(NoProgram()).answer("edit", {"text": TEXT, "edit": edit})


# Values that are typed.

@pytest.mark.parametrize("value, word", [
    ("40", "40"), ("40 mm", "40mm"), (" 40\u00a0mm ", "40mm"), ("0.5 in", "0.5in"),
    ("30 deg", "30deg"), ("+ 30 °", "+30°"), ("- 5", "-5"), ("1 / 2", "1/2")])
def test_a_blank_may_set_a_unit_apart(value: str, word: str) -> None:
    assert value_word(value) == word


@pytest.mark.parametrize("value", ["40 50", "1 000", "40 mm 5", "40 + + +", "40 mm mm", ""])
def test_two_words_are_no_value(value: str) -> None:
    with pytest.raises(WordFault, match="isn't one value"):
        value_word(value)


@pytest.mark.parametrize("value, line", [
    ("41 mm", "Width: length Bottom 41"), ("1 in", "Width: length Bottom 25.4"),
    ("40 + 5", "Width: length Bottom 40 + 5")])
def test_another_value_is_taken_with_its_unit(value: str, line: str) -> None:
    found = edited({"do": "value", "number": 1, "value": value})
    assert line in str(found["text"]).splitlines()


@pytest.mark.parametrize("words, value, line", [
    (["length", "Left"], "30 mm", "length Left 30"),
    (["angle", "Left", "Bottom"], "60 deg", "angle Left Bottom 60deg"),
    (["diameter", "Hole"], "8 mm", "diameter Hole 8"),
    (["angle", "Left", "Bottom"], "1 / 2", "angle Left Bottom 1/2")])
def test_a_value_is_asked_for_with_its_unit(words: list[str], value: str, line: str) -> None:
    found = edited({"do": "ask", "words": words, "value": value})
    assert line in str(found["text"]).splitlines()


@pytest.mark.parametrize("edit, told", [
    ({"do": "value", "number": 1, "value": "10000000"},
     "Width: '10000000' is beyond 1000000 mm: give lengths in millimetres, or in inches, such as "
     "1.5in"),
    ({"do": "value", "number": 1, "value": "40 50"}, 
     "Width: '40 50' isn't one value: write a number such as 40, 0.5in or 60deg, or an expression "
     "such as Width/2"),
    ({"do": "value", "number": 1, "value": "0"}, "Width: '0' is no length, which is above 0"),
    ({"do": "value", "number": 2, "value": "60"},
     "constraint 2 (angle Bottom Left 90deg): '60' is no angle: write 60deg, or a ratio such as 1/2"),
    ({"do": "ask", "words": ["diameter", "Hole"], "value": "4 cm"},
     "diameter Hole: '4cm' has a unit that isn't read: write millimetres, such as 12.5, or "
     "inches, such as 0.5in"),
    ({"do": "ask", "words": ["length", "Left"], "value": "-3"},
     "length Left: '-3' is no length: write it without the minus")])
def test_a_value_that_isnt_taken_is_told_with_its_dimension(
        edit: dict[str, object], told: str) -> None:
    assert edited(edit)["trouble"] == {"kind": "edit", "message": told}


# Texts and files.

@pytest.mark.parametrize("line", ["fly Bottom 4", "sketch 1", "block Bottom", "outside Hole Hole"])
def test_a_line_that_cant_be_read_sends_nobody_elsewhere(line: str) -> None:
    refused = Desk(NoProgram()).answer("judge", {"text": TEXT + line})["refused"]
    assert isinstance(refused, dict) and refused["line"] == 6
    assert ".md" not in refused["message"] and "./" not in refused["message"]


def opened(name: str, data: bytes) -> list[str]:
    """What the sketches of a file are called."""
    given = {"name": name, "data": base64.b64encode(data).decode()}
    found = Desk(NoProgram()).answer("open", given)["sketches"]
    assert isinstance(found, list)
    return [each["name"] for each in found]


def test_a_sketch_of_freecad_has_the_name_of_its_file_in_front() -> None:
    data = (FILES / "body.FCStd").read_bytes()
    left, right = opened("left.FCStd", data), opened("right.FCStd", data)
    assert len(left) == len(set(left)) > 1 and not set(left) & set(right)
    assert all(each.startswith("left ") for each in left)


def test_a_drawing_is_called_as_its_file() -> None:
    assert opened("plate.drawing", b"point P 0 0\n") == ["plate"]
    assert opened("file.drawing", b"point P 0 0\n") == ["file"]


# Faults.

THREE = "segment A 0 0 40 0\nsegment B A.end 20 30\nsegment C B.end A.start\n" \
        "length A 40\nlength B {}\nlength C {}\n"


def told_of(program: Program, text: str) -> str:
    """The verdict's lines on a text."""
    judgement = Desk(program).answer("judge", {"text": text})["judgement"]
    assert isinstance(judgement, dict) and judgement["placed"] is None
    lines = "\n".join(each["text"] for each in judgement["lines"])
    assert not any(raw in lines for raw in ("fault ", "nm", "ppb", "mm²"))
    return lines


@pytest.mark.parametrize("b, c, meets", [
    (36, 3, "A.end is 36 mm from"), (36, 3, "1 mm too short to meet"),
    ("10.5", 20, "9.5 mm too short to meet"), (36, 4, "so that all lie in one line")])
def test_three_lengths_that_dont_meet_are_told_in_mm(
        program: Program, b: object, c: object, meets: str) -> None:
    told = told_of(program, THREE.format(b, c)).replace("\u00a0", " ")
    assert meets.replace("A.end is 36 mm from", "36 mm from A.end") in told


def test_one_that_is_too_long_is_told_by_what_it_lies_too_far(program: Program) -> None:
    told = told_of(program, THREE.format(100, 20)).replace("\u00a0", " ")
    assert "A.end and B.end are 100 mm apart" in told and "40 mm too short to meet" in told


BESIDE = """segment A 0 0 40 0
point P 10 30
point Q 20 {}
coincident A.start Origin
horizontal A
length A 40
x P 10
distance P A 30
distance Q A 5
distance P Q {}
"""
BELT = """circle A 0 0 10
circle B 30 8 8
segment S -20 20 30 0
coincident A Origin
radius A 10
radius B 8
distance A B 10
tangent S A
tangent S B
length S 40
on B XAxis
x S.start -20
"""


@pytest.mark.parametrize("y, apart, told", [
    (5, 10, "P are 10 mm apart, and by the other dimensions at least 25 mm: 15 mm too short"),
    (-5, 20, "P are 20 mm apart, and by the other dimensions at least 35 mm: 15 mm too short")])
def test_two_heights_that_are_further_apart_than_the_points(
        program: Program, y: int, apart: int, told: str) -> None:
    lines = told_of(program, BESIDE.format(y, apart)).replace("\u00a0", " ")
    assert told in lines and "Q can’t be placed" in lines


def test_circles_that_are_nearer_than_a_line_between_them_allows(program: Program) -> None:
    """The segment is drawn between them, so it is 10 and 8 mm away on two sides."""
    lines = told_of(program, BELT).replace("\u00a0", " ")
    assert "are 10 mm apart, and by the other dimensions at least 18 mm: 8 mm too short" in lines
    assert "help" not in lines


def test_a_step_that_has_no_other_shape_is_told_in_words(program: Program) -> None:
    desk, text = Desk(program), drawing("arm")
    construction = desk.answer("plan", {"text": text})["construction"]
    assert isinstance(construction, dict)
    number = next(each["number"] for each in construction["steps"] if each["choice"] == "none")
    found = desk.answer("flips", {"text": text, "steps": [number]})
    assert found == {"trouble": {
        "kind": "flip", "message": "this step has no choice that could be flipped"}}


# What an open drawing lacks, and within what a drawing is placed.

def told(program: object, text: str) -> list[str]:
    """The lines of the panel."""
    judgement = Desk(program).answer("judge", {"text": text})["judgement"]
    return [each["text"] for each in judgement["lines"]]


TIES = "coincident A1 Origin\non A2 XAxis\n"
UTILITIES = "".join(
    f"point {name} {x} {y}\n" for name, x, y in (
        ("A1", 0, 0), ("A2", 40, 0), ("A3", 85, 7), ("B1", 3, 50), ("B2", 37, 60), ("B3", 90, 42))
) + "".join(f"distance A{one} B{other} {40 + 3 * one + other}\n"
               for one in (1, 2, 3) for other in (1, 2, 3))
"""Three points, each with its distance from three others: nine dimensions of twelve freedoms, and
no triangle."""
NO_TRIANGLES = "It isn’t built of triangles, so the program doesn’t find it fully constrained."


@pytest.mark.parametrize("text, first", [
    ("segment S 10 0 10 10\non S.start XAxis\nvertical S\nlength S 10\n",
     "Not tied to the origin and the axes: the whole can still be moved along x, by rank."),
    ("segment S 10 0 10 10\non S.start XAxis\nvertical S\n",
     "At least 1 dimension is missing, by rank."),
    (UTILITIES + TIES, NO_TRIANGLES),
    (UTILITIES, "Not tied to the origin and the axes: the whole can still be moved and turned, by rank."),
])
def test_what_an_open_drawing_lacks_is_told_first(program: Program, text: str, first: str) -> None:
    """Behind how many degrees of freedom it has, where a shape is found."""
    gloss, *lines = told(program, text)
    assert gloss == "Under-constrained, or rigid in a way that the program doesn’t find."
    assert (lines[1] if "freedom (by numbers" in lines[0] else lines[0]) == first
    assert (NO_TRIANGLES in lines) is (text == UTILITIES + TIES)


def test_nothing_is_told_of_triangles_where_the_rank_isnt_counted(
        program: Program, monkeypatch: pytest.MonkeyPatch) -> None:
    """As of a large drawing, which may just lack a dimension."""
    monkeypatch.setattr("pertxogai.judging.missing.freedoms", lambda drawing: None)
    assert NO_TRIANGLES not in told(program, UTILITIES + TIES)


class Coarse:
    """A program that places as exactly as it says, but says 8,000 nm."""

    def __init__(self, program: Program) -> None:
        self._program = program

    def ask(self, words: Sequence[str], text: str) -> Answer:
        answer = self._program.ask(words, text)
        coarse = "length tolerance 8000 nm at c1"
        return Answer(answer.status, re.sub(r"length tolerance \d+ nm at \S+", coarse, answer.text))


def test_the_tolerance_is_that_of_the_drawing(program: Program) -> None:
    """1/16 in are 1,587.5 micrometres, so its sketch is twice as large."""
    text = "segment A 0 0 2 0\ncoincident A.start Origin\nhorizontal A\nlength A 0.0625in\n"
    assert any("Placed within 0.004 mm and" in line for line in told(Coarse(program), text))
